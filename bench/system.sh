#!/bin/sh
# Times events of runs of many processes, in the build that LLVM makes, beside a loop of one process in the same minute,
# by whose step they are given; and takes the memory of runs of 100 and of 10,000 messages. It prints tables for
# docs/SPEED.md, and fails where
# - an event of two processes that send each other 100 messages takes over 7 steps of the loop,
# - an event costs over 1.3 times as much with 2, 16, 64 or 250 processes as with another number of them, or a
# microsecond with 1,000 that all go,
# - an event costs over 1.3 times as much in a run of some 10, 100, 1,000 or 10,000 events as in another, the start of a
# run taken off,
# - a run of 10,000 messages takes over a page more than one of 100, beside the lists of their events.
# With a word it takes that program, which `bench/program.sh system PROGRAM` has built.
set -eu
here=$(cd "$(dirname "$0")" && pwd)
room=$(mktemp -d)
trap 'rm -rf "$room"' EXIT
program=${1:-$room/system}
[ $# -gt 0 ] || sh "$here/program.sh" system "$program"
cc -O2 -shared -fPIC -o "$room/blocks.so" "$here/../tests/faults/refused/refuse.c" -ldl

bad=0
"$program" | awk '
  # The picoseconds of an event go into a row of the table, and for a flat row also into its bounds.
  function row(what, event, flat) {
    printf "| %s | %s | %.0f ns | %.1f |\n", what, $3, event / 1000, event / step
    if (flat && (low[$1] == 0 || event < low[$1])) low[$1] = event
    if (flat && event > high[$1]) high[$1] = event
  }
  $1 == "loop" { step = $5 / $4
    printf "a step of the loop: %.1f ns\n\n", step / 1000
    print "| run | events | an event | steps of the loop |"; print "|---|---|---|---|" }
  $1 == "pair" { row("two processes send each other " $2 " messages", $5 / $3, 0); if ($5 / $3 > 7 * step) bad = 1 }
  $1 == "ring" { row("a ring of " $2 " processes passes 500 messages", $5 / $3, 0) }
  $1 == "reports" { row($2 " processes are spawned and report once", $5 / $3, 0) }
  $1 == "newest" { row("a mailbox of " $2 " messages, read from its end", $5 / $3, 0) }
  $1 == "one" { row($2 " processes, of which one goes", $5 / $3, $2 <= 250) }
  $1 == "all" { row($2 " processes, which all go", $5 / $3, $2 <= 250); if ($2 > 250 && $5 / $3 >= 1000000) bad = 1 }
  $1 == "long" && $2 == 0 { start = $5; begun = $3
    printf "| the start of a run | %s | %.0f ns | %.1f |\n", $3, $5 / $3 / 1000, $5 / $3 / step }
  $1 == "long" && $2 > 0 { row("two processes and " $2 " messages, behind the start", ($5 - start) / ($3 - begun), 1) }
  END { for (kind in high) if (high[kind] > 1.3 * low[kind]) bad = 1
    exit bad || NR != 20 }' || bad=1

# The bytes that are in blocks at most in a run of so many messages, beside the list of its events, which grows by
# doubling and is cut to its size at the end.
beside() {
  LD_PRELOAD="$room/blocks.so" BLOCKS_TOLD="$room/blocks" "$program" "$1" > "$room/told"
  most=$(sed -n 's/.*, \([0-9]*\) bytes at most$/\1/p' "$room/blocks")
  echo $((most - $(awk '{ n = 4; while (n < $1) n *= 2; print n * $2 / $1 }' "$room/told")))
}

few=$(beside 100)
many=$(beside 10000)
echo
echo "| messages | bytes in blocks at most, beside the list of events |"
echo "|---|---|"
echo "| 100 | $few |"
echo "| 10,000 | $many |"
# A large block is counted up to the end of its last page.
[ "$many" -le $((few + 4096)) ] || bad=1
exit "$bad"
