#!/bin/sh
# Runs each module beside this script by 200 seeds, and gives the choices of each printed report back as a schedule: the
# same bytes and the same status have to come. Of each module the seeds have to give at least two reports.
#
# Usage: run.sh [BINARY]; the program is that of the crate `pulsefarm` where none is named.
set -u
modules=$(cd "$(dirname "$0")" && pwd)
top=$modules/../../..
# shellcheck source=tests/compare.sh
. "$top/tests/compare.sh"

# Runs the module $1 by the words from $2 on; leaves its report in `$room/report`, and its status.
report() {
  source=$1
  shift
  timeout 60 "$program" run "$source" --root main --limit 1000 --property nodeadlock "$@" > "$room/report" \
    2> "$room/err"
  status=$?
}

for source in "$modules"/*.erl; do
  : > "$room/sums"
  seed=0
  while [ "$seed" -lt 200 ]; do
    report "$source" --seed "$seed"
    if [ "$status" -gt 1 ]; then
      fail "${source##*/}, seed $seed: status $status, errors: $(head -c 300 "$room/err")"
    else
      mv "$room/report" "$room/wanted"
      cksum < "$room/wanted" >> "$room/sums"
      compare "${source##*/}, seed $seed" "$status" /dev/null "$room/wanted" \
        run "$source" --root main --limit 1000 --property nodeadlock --schedule "$(choices_of "$room/wanted")"
    fi
    seed=$((seed + 1))
  done
  reports=$(sort -u "$room/sums" | wc -l)
  echo "${source##*/}: $reports reports"
  if [ "$reports" -lt 2 ]; then
    fail "${source##*/}: no seed made a difference"
  fi
done
tell_counts
