#!/bin/sh
# A flush takes out the message that names its reference, however the signals came: a run of three processes, in which a
# flush after the end of a watched process has to leave the message of the third for the receive after it, by every
# schedule of up to six numbers from 0 to 2.
#
# Usage: run.sh [BINARY]; the program is that of the crate `pulsefarm` where none is named.
set -u
top=$(cd "$(dirname "$0")/../../.." && pwd)
# shellcheck source=tests/compare.sh
. "$top/tests/compare.sh"
# shellcheck source=tests/rows.sh
. "$top/tests/rows.sh"

take_apart "$top/tests/golden/rows/flush_takes_the_oldest_that_tells.row" "$room/row"

# Runs the program by a schedule; the root has to return z.
flushed() {
  timeout 120 "$program" run --root main --limit 1000 --schedule "$1" < "$room/row/stdin" > "$room/out" 2> "$room/err"
  status=$?
  if [ "$status" = 0 ] && grep -q -x 'finished z' "$room/out"; then
    pass
  else
    fail "schedule $1: status $status, output: $(tail -n 3 "$room/out")"
  fi
}

# Every schedule of so many numbers more, after those of $1.
all_behind() {
  flushed "$1"
  [ "$2" != 0 ] || return 0
  for number in 0 1 2; do
    all_behind "$1,$number" $(($2 - 1))
  done
}

flushed none
for first in 0 1 2; do
  all_behind "$first" 5
done
tell_counts
