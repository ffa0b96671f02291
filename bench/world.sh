#!/bin/sh
# Times the steps of a workshop of 64 workers, in the build that LLVM makes. It prints a table for docs/SPEED.md, and
# fails where
# - a whole run in slices of 256 events costs over 1.05 times one in one slice, or in slices of one event over 1.5
# times,
# - a parking, with what takes the run again, costs over 1.5 times as much for a run with 5,000 messages in its mailbox
# as for one with one,
# - a claim among 10,000 projects with 64 queued trials each costs over 1.5 times one among 10,
# - a worker's step costs over 1.5 times as much in a list of 1,000,000 as in one of 1,000.
# With a word it takes that program, which `bench/program.sh world PROGRAM` has built.
set -eu
here=$(cd "$(dirname "$0")" && pwd)
room=$(mktemp -d)
trap 'rm -rf "$room"' EXIT
program=${1:-$room/world}
[ $# -gt 0 ] || sh "$here/program.sh" world "$program"

"$program" | awk '
  BEGIN { print "| what | each |"; print "|---|---|" }
  function row(what, nanos) { printf "| %s | %.0f ns |\n", what, nanos }
  $1 == "slices" { row("a run in " $3 " slices of at most " $2 " events", $4); run[$2] = $4 }
  $1 == "parkings" {
    row("a parking and a taking up, " $2 " messages", $3 / 6400); own[$2] = $3
    row("a parking and a theft, " $2 " messages", $4 / 6400); others[$2] = $4
  }
  $1 == "claims" { row("a claim and a hand-back among " $2 " projects", $3 / 640); claim[$2] = $3 }
  $1 == "steps" { row("a step of a worker in a list of " $2, $3 / $2); step[$2] = $3 / $2 }
  END {
    exit NR != 10 || run[256] > 1.05 * run[100000] || run[1] > 1.5 * run[100000] || own[5000] > 1.5 * own[1] || others[5000] > 1.5 * others[1] \
      || claim[10000] > 1.5 * claim[10] || step[1000000] > 1.5 * step[1000]
  }'
