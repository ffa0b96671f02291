#!/bin/sh
# The tests of the built programs, of `tests/mutants/mutants.sh`, and of mutants of the farm's threads: each folder
# below tests/ with a `run.sh`, whose last line is `N passed, M failed`. As many run at once as there are processors,
# first those that take long; those that build the Erlang part run one after another.
set -u
cd "$(dirname "$0")/.." || exit 2
room=$(mktemp -d) || exit 2
trap 'rm -rf "$room"' EXIT
erlang='erlang release/install release/package'
slow='farm/threads faults/refused golden/chart'

# The names of all tests: their folders below tests/.
names() {
  for script in tests/*/run.sh tests/*/*/run.sh; do
    name=${script#tests/}
    echo "${name%/run.sh}"
  done
}

# The names of the tests, those that take long first, with a line for those that run one after another.
# (the names are words)
# shellcheck disable=SC2086
lines() {
  echo "$erlang"
  { printf '%s\n' $slow; names; } | awk '!seen[$0]++' | grep -vxF "$(printf '%s\n' $erlang)"
}

# What each says is in the room, and its status with the seconds that it took.
lines | xargs -P "$(nproc)" -L 1 sh -c 'room=$0
  for name; do
    start=$(date +%s)
    mkdir -p "$room/$name"
    "tests/$name/run.sh" > "$room/$name/out"
    echo "$?" "$(($(date +%s) - start))" > "$room/$name/status"
  done' "$room"
passed=0
failed=0
for name in $(names); do
  script=tests/$name/run.sh
  status=
  seconds=
  [ ! -e "$room/$name/status" ] || read -r status seconds < "$room/$name/status"
  echo "== $script, ${seconds:-no} seconds"
  [ ! -e "$room/$name/out" ] || cat "$room/$name/out"
  counts=$(tail -n 1 "$room/$name/out" 2> /dev/null | sed -n 's/^\([0-9]*\) passed, \([0-9]*\) failed$/\1 \2/p')
  if [ -z "$counts" ]; then
    failed=$((failed + 1))
    echo "$script ended with status ${status:-none} and told no count"
    continue
  fi
  passed=$((passed + ${counts% *}))
  failed=$((failed + ${counts#* }))
done
echo "$passed passed, $failed failed"
[ "$failed" = 0 ]
