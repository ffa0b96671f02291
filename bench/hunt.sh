#!/bin/sh
# Times a hunt over 10,000 seeds of a race of two processes, in the build that LLVM makes, beside the sum of its runs in
# the same minute. It prints a table for docs/SPEED.md, and fails where one worker takes over 1.3 times the sum of the
# runs, or four take over 0.4 of it where there are four processors; or where a seed whose outcome is new takes over 1.3
# times as much among 40,000 of them as among 4,000.
set -eu
sh "$(dirname "$0")/program.sh" hunt | awk -v processors="$(nproc)" '
  { print "| what | a seed | of the sum |"; print "|---|---|---|"
    printf "| the runs by themselves | %.2f us | 1 |\n", $1 / 1e7
    printf "| a hunt by one worker | %.2f us | %.2f |\n", $2 / 1e7, $2 / $1
    printf "| a hunt by four workers | %.2f us | %.2f |\n", $3 / 1e7, $3 / $1
    printf "| each outcome by four workers | %.2f us | %.2f |\n", $4 / 1e7, $4 / $1
    printf "| an outcome that is new, of 4,000 | %.2f us | - |\n", $5 / 4e6
    printf "| an outcome that is new, of 40,000 | %.2f us | - |\n", $6 / 4e7
    bad = $2 > 1.3 * $1 || processors >= 4 && $3 > 0.4 * $1 || $6 > 13 * $5 }
  END { exit bad || NR != 1 }'
