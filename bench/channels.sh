#!/bin/sh
# Times a signal's way, sent and then delivered, and a head, with 1, 100, 10,000, 65,536 and 1,048,576 pairs that have
# signals on their way (from each of 1, 10, 100, 256 and 1,024 senders to as many receivers), and with 65,536 from each
# of 1,024 senders to 64 receivers (wide), in the build that LLVM makes. A signal's way is timed of a pair that has one
# on its way (busy), and of a pair that has none: after the other receivers of its sender (last) and before them
# (first), where their places move. And the only signal of a pair is delivered and sent again (only), where the places
# of the receivers after it move. It prints a table for docs/SPEED.md, and fails where the way of a busy pair or of a
# last one costs over 3 times as much with some number of pairs up to 10,000 as with another, or where with 65,536
# pairs, also wide, a head, or one of the two calls of a way, of a busy pair or of an only signal, takes a microsecond,
# or with all 1,048,576 pairs four.
set -eu
lines=$(sh "$(dirname "$0")/program.sh" channels)
printf '%s\n' "$lines" | awk '
  BEGIN { print "| call | 1 pair | 100 pairs | 10,000 pairs | highest to lowest | 65,536 pairs | wide | 1,048,576 pairs |"; print "|---|---|---|---|---|---|---|---|" }
  # Whether so many calls take under a microsecond each with 65,536 pairs, and under four with all.
  function slow(calls) { return $5 >= calls * 1000000 || $6 >= calls * 1000000 || $7 >= calls * 4000000 }
  { low = high = $2
    for (i = 3; i <= 4; i++) { if ($i < low) low = $i; if ($i > high) high = $i }
    if (($1 == "busy" || $1 == "last") && high > 3 * low) bad = 1
    if (($1 == "busy" || $1 == "only") && slow(2) || $1 == "head" && slow(1)) bad = 1
    printf "| %s | %.1f ns | %.1f ns | %.1f ns | %.1f | %.1f ns | %.1f ns | %.1f ns |\n", $1, $2 / 1000, $3 / 1000, $4 / 1000, high / (low > 0 ? low : 1), $5 / 1000, $6 / 1000, $7 / 1000 }
  END { exit bad || NR != 5 }'
