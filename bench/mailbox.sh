#!/bin/sh
# Times a message that is placed in a mailbox (and packed again with the others), with 10, 100 and 1,000 messages, and a
# message that is placed after 9, 99 and 999 others and then taken by a `receive` that wants it alone, in the build that
# LLVM makes. It prints a table for docs/SPEED.md, the second row also by each message that is tested, and fails where a
# message placed costs over 3 times as much with some number as with another, or a message tested among 1,000 over 3
# times as much as one among 10.
set -eu
lines=$(sh "$(dirname "$0")/program.sh" mailbox)
printf '%s\n' "$lines" | awk '
  BEGIN { print "| call | 10 messages | 100 messages | 1,000 messages |"; print "|---|---|---|---|" }
  { printf "| %s | %.1f ns | %.1f ns | %.1f ns |\n", $1, $2 / 1000, $3 / 1000, $4 / 1000 }
  $1 == "placed" { low = high = $2
    for (i = 3; i <= 4; i++) { if ($i < low) low = $i; if ($i > high) high = $i }
    if (high > 3 * low) bad = 1 }
  $1 == "newest" { printf "| each tested | %.1f ns | %.1f ns | %.1f ns |\n", $2 / 10000, $3 / 100000, $4 / 1000000
    if ($4 / 1000 > 3 * $2 / 10) bad = 1 }
  END { exit bad || NR != 2 }'
