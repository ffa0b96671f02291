#!/bin/sh
# What a worker keeps between runs is bounded: of a stack, a mailbox or a queue that grew large no more than some 64 KiB
# stay. For each source below `steps` makes a run within 100,000 steps that takes megabytes, drops it, and then reads
# sources that take more than that run did. The most bytes that are in blocks may be 300,000 more than in the same
# script whose run is cut after 100 steps.
#
# Usage: run.sh [BINARY]; the program is that of the crate `pulsefarm` where none is named.
set -u
top=$(cd "$(dirname "$0")/../../.." && pwd)
# shellcheck source=tests/compare.sh
. "$top/tests/compare.sh"
build_library "$room/blocks.so" "$top/tests/faults/refused/refuse.c"

# Eight sources of some 60,000 bytes, each of a project of its own. A checked module of such strings takes some 50 bytes
# for each of its own.
awk 'BEGIN {
  for (k = 1; k < 200; k++) letters = letters "a"
  for (p = 2; p <= 9; p++) {
    text = "-module(m).\n% of project " p "\n"
    for (n = 1; length(text) < 60000; n++) text = text sprintf("f%d() -> \"%s\".\n", n, letters)
    printf "submit %d %d\n%s\n", p, length(text), text
  }
}' > "$room/sources"

# Sets `most` to the bytes that are in blocks at most where project 1 has a run of the source $1 within $2 steps made
# and dropped, and then the script $3 goes on.
measure() {
  {
    printf 'submit 1 %d\n%s\n' "${#1}" "$1"
    printf 'order 1 1 main withinlimit none %d\nclaim 0 1 1\nslice 0 1 1 100000\nfile 0 1 1\ndrop 1 1\n' "$2"
    cat "$3"
  } > "$room/in"
  timeout 120 env LD_PRELOAD="$room/blocks.so" BLOCKS_TOLD="$room/blocks" "$program" steps "$room/in" > "$room/out" \
    2> "$room/err"
  most=$(sed -n 's/.*, \([0-9]*\) bytes at most$/\1/p' "$room/blocks")
  grep -q '^w0 done$' "$room/out" && ! grep -q refused "$room/out" || most=
}

# The four measures of the source $2, which $1 names.
is_given_back() {
  measure "$2" 100 /dev/null
  early=$most
  measure "$2" 100000 /dev/null
  large=$most
  measure "$2" 100 "$room/sources"
  then_early=$most
  measure "$2" 100000 "$room/sources"
  then_large=$most
  echo "$1: the run takes $((large - early)) bytes, what follows $((then_early - early)), and $((then_large - then_early)) are kept"
  [ $((large - early)) -ge 1500000 ] && [ "$then_early" -ge "$large" ] && [ $((then_large - then_early)) -le 300000 ]
  note "$1" $?
}

# Each of 45,000 levels waits for its second element: it takes a frame, a slot and an operand. Then the process ends.
is_given_back 'a deep stack' '-module(m).
-export([main/0]).
main() -> f(45000).
f(0) -> exit(deep);
f(N) -> {N, f(N - 1)}.'

# 8,000 messages to oneself wait in their queue and then in the mailbox, since the last is taken first; then all are
# taken.
is_given_back 'a queue and a mailbox' '-module(m).
-export([main/0]).
main() -> flood(8000).
flood(0) -> receive 1 -> drain(2) end;
flood(N) -> self() ! N, flood(N - 1).
drain(8001) -> ok;
drain(N) -> receive N -> drain(N + 1) end.'

tell_counts
