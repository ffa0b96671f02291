#!/bin/sh
# Hunts by priorities over each module of examples/rare/: its property has to fail by a seed below ten times the number
# of runs that the table of examples/rare/README.md names; the choices of that run have to mean the same report; and by
# each of the first 10,000 seeds the property of its fixed form has to hold. Of two modules the least seed has to be the
# same by 1, 3 and 64 workers.
#
# Usage: run.sh [BINARY]; the program is that of the crate `pulsefarm` where none is named.
set -u
top=$(cd "$(dirname "$0")/../../.." && pwd)
# shellcheck source=tests/compare.sh
. "$top/tests/compare.sh"
examples=$top/examples/rare

# Hunts over the module $1 by the seeds $2, with the words from $3 on.
hunts() {
  module=$1
  shift
  hunt_over "$examples/$module.erl" 5000 true "$@"
}

# The report of the schedule that the hunt of the module $1 reported, against the one that it reported with it.
replays() {
  sed -n 's/^schedule //p' "$room/out" | head -n 1 > "$room/schedule"
  sed -n '/^[0-9]*\/[0-9]* </,$p' "$room/out" > "$room/wanted"
  compare "the schedule of $1" 1 /dev/null "$room/wanted" \
    run "$examples/$1.erl" --root main --limit 5000 --property true --schedule "$(cat "$room/schedule")"
}

# A line of the table: the module, and how many runs it takes by priorities.
sed -n 's/^| `\([a-z_]*\)` | \([0-9]*\) |.*/\1 \2/p' "$examples/README.md" > "$room/table"
while read -r race runs; do
  hunts "$race" "0..$((runs * 10))"
  note "$race within $((runs * 10)) runs" "$((status != 1))"
  grep -q '^strategy pos$' "$room/out"
  note "$race by priorities" $?
  replays "$race"
  hunts "${race}_mended" 0..10000
  note "${race}_mended" "$status"
done < "$room/table"
for race in two_acting closed_too_soon; do
  hunts "$race" 0..10000 --workers 1
  cp "$room/out" "$room/wanted"
  for workers in 3 64; do
    compare "$race by $workers workers" 1 /dev/null "$room/wanted" \
      hunt "$examples/$race.erl" --root main --limit 5000 --property true --seeds 0..10000 --workers "$workers"
  done
done
[ "$passed" = 36 ] || note 'eight modules with their mended forms' 1
tell_counts
