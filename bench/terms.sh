#!/bin/sh
# Times shares, heads, tails and conses of lists of 10 and of 1,000 elements, in the build that LLVM makes. It prints a
# table for docs/SPEED.md, and fails where a call costs over 1.2 times as much on the long list as on the short one.
set -eu
lines=$(sh "$(dirname "$0")/program.sh" terms)
printf '%s\n' "$lines" | awk '
  BEGIN { print "| call | 10 elements | 1,000 elements | ratio |"; print "|---|---|---|---|" }
  { ratio = $3 / $2; if (ratio > 1.2) bad = 1
    printf "| %s | %.1f ns | %.1f ns | %.2f |\n", $1, $2 / 1000, $3 / 1000, ratio }
  END { exit bad }'
