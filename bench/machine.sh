#!/bin/sh
# Times a step of the machine, in the build that LLVM makes: a loop by tail calls from 30,000, a sum to 10,000, the 18th
# Fibonacci number and work on lists of 1,000 elements, each up to a limit of steps or its end. It prints a table for
# docs/SPEED.md, and fails where a step costs over 60 ns, or under the highest limit over 1.3 times as much as under the
# lowest.
set -eu
lines=$(sh "$(dirname "$0")/program.sh" machine)
printf '%s\n' "$lines" | awk '
  BEGIN { print "| run | limit | a step |"; print "|---|---|---|" }
  { if ($3 > 60000 || ($2 == 100000 && $3 > 1.3 * first[$1])) bad = 1
    if ($2 == 1000) first[$1] = $3
    printf "| %s | %s | %.1f ns |\n", $1, $2, $3 / 1000 }
  END { exit bad }'
