#!/usr/bin/env bash
# Mutants of the running farm's threads, which no contract refuses, since overlap and theft are not promised by one: all
# workers on one thread, the lock kept round a slice, each claim handed back, no run parked, none stolen. Each is a
# crate of its own beside the real farm, and one build, by `rt try`, has them all. The tests `gate_two_trials` and
# `gate_steal` pass on the farm as it is; of a mutant those have to fail that `mutants.py names` lists, and the others
# pass. The waits of the tests are shorter here than theirs, the same for the farm and for its mutants. On a busy
# machine they may still take minutes, so a test that hasn't ended after SECONDS_A_TEST (40) has failed. Nothing is
# proved here, and no crate has to be.
set -u
top=$(cd "$(dirname "$0")/../../.." && pwd)
here=$top/tests/farm/threads
# shellcheck source=tests/checks.sh
. "$top/tests/checks.sh"
trap 'exit 130' INT TERM HUP

mkdir "$room/tree" && cd "$top" || exit 2
tar -cf - HANDLES crates.txt crates/*/src | tar -xf - -C "$room/tree" || exit 2
python3 -B "$here/mutants.py" "$room/tree" || exit 2
kit=$(dirname "$(realpath "$(command -v rt)")")
(cd "$room/tree/crates/pf_tests_farm" && python3 -B "$here/try.py" "$kit" --test --seconds "${SECONDS_A_TEST:-40}") \
  > "$room/log" 2>&1
# Each test that ran, and what became of it.
sed -n 's/^test \([a-z_:]*\) \.\.\. \([a-zA-Z]*\).*/\1 \2/p' "$room/log" > "$room/ran"
while read -r test wanted; do
  became=$(sed -n "s/^$test //p" "$room/ran")
  same "$test" "${became:-it did not run}" "$wanted"
done < <(python3 -B "$here/mutants.py" names)
[ "$failed" = 0 ] || tail -n 60 "$room/log"
tell_counts
