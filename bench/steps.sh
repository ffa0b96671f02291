#!/bin/sh
# Times `pulsefarm steps` on scripts of many projects, each with 16 modules, 64 orders, and for each order a worker's
# claim, slice and file, and a `fetch`, and takes how many bytes are in blocks at most. It prints tables for
# docs/SPEED.md, and fails where
# - a command costs over 1.5 times as much in one script as in another,
# - 100 projects that submit the same 16 modules take 3 bytes or more for each byte that is read and written: the
# sources, the calls and the replies
#   with their reports,
# - 100 projects that submit modules of their own take 3 bytes or more for each byte of their sources, reports and logs
# as these are in memory,
# - one more fetch of a report takes as much as a note and a copy of the report,
# - large sources take 2.5 bytes or more for each byte that is read: the input and the one copy that desk and log share
# are 2,
# - a client's call costs over 1.5 times as much among 10,000 projects as among 10, with a full log as with an empty
# one, or at the 64th
#   trial as at the first,
# - a trial that is run and dropped, and was never fetched, leaves more than its notes, its order and its lines,
# - modules that are withdrawn leave 3 bytes or more for each byte of their text.
# It also prints what 100 projects with modules of their own take for each byte that is read and written; by that it
# doesn't fail. The program is the one that the gate or install.sh built.
set -eu
top=$(cd "$(dirname "$0")/.." && pwd)
program=${1:-$top/crates/pulsefarm/out/pulsefarm}
room=$(mktemp -d)
trap 'rm -rf "$room"' EXIT
cc -O2 -shared -fPIC -o "$room/blocks.so" "$top/tests/faults/refused/refuse.c" -ldl

# The script of $1 projects with $2 modules and $3 orders each: each command for all projects before the next, so that
# no two in a row are of one project. The modules are those of all projects, or where $4 is `own` each its project's
# own.
script() {
  awk -v projects="$1" -v modules="$2" -v orders="$3" -v whose="$4" 'BEGIN {
    for (m = 1; m <= modules; m++) for (p = 1; p <= projects; p++) {
      text = "-module(m).\n-export([main/0]).\n% module " m " of " (whose == "own" ? "project " p : "all") "\nmain() -> sum(" m + 20 ").\nsum(N) -> case N of 0 -> 0; _ -> N + sum(N - 1) end.\n"
      printf "submit %d %d\n%s\n", p, length(text), text
    }
    for (t = 1; t <= orders; t++) {
      for (p = 1; p <= projects; p++) printf "order %d %d main returns none 1000\n", p, 1 + t % modules
      for (p = 1; p <= projects; p++) printf "claim 0 %d %d\nslice 0 %d %d 1000\nfile 0 %d %d\n", p, t, p, t, p, t
      for (p = 1; p <= projects; p++) printf "fetch %d %d\n", p, t
    }
  }'
}

# Nanoseconds of a run of the script, the least of twenty.
least() {
  best=
  for _ in 1 2 3 4 5 6 7 8 9 10 11 12 13 14 15 16 17 18 19 20; do
    start=$(date +%s%N)
    "$program" steps "$room/in" > "$room/out"
    took=$(($(date +%s%N) - start))
    if [ -z "$best" ] || [ "$took" -lt "$best" ]; then best=$took; fi
  done
  echo "$best"
}

# What a run costs that makes no command.
: > "$room/in"
start_up=$(least)

bad=0
low=
high=
echo "| commands | a command |"
echo "|---|---|"
for projects in 8 31 123; do
  script "$projects" 16 64 own > "$room/in"
  commands=$((projects * 336))
  each=$((($(least) - start_up) / commands))
  echo "| $commands | $each ns |"
  if [ -z "$low" ] || [ "$each" -lt "$low" ]; then low=$each; fi
  if [ -z "$high" ] || [ "$each" -gt "$high" ]; then high=$each; fi
done
[ $((high * 10)) -le $((low * 15)) ] || bad=1

# Sets `most` to the bytes that are in blocks at most, and `text` to those that are read and written.
measure() {
  LD_PRELOAD="$room/blocks.so" BLOCKS_TOLD="$room/blocks" "$program" steps "$room/in" > "$room/out"
  most=$(sed -n 's/.*, \([0-9]*\) bytes at most$/\1/p' "$room/blocks")
  text=$(($(wc -c < "$room/in") + $(wc -c < "$room/out")))
}

# The bytes of what is noted, ordered and answered, as the types had them when the bound was set and without what blocks
# have beside: a note (a call with its reply, a claim or a file), an order with its two words, and a report with its one
# event.
note=24
order=96
report=$((64 + 48))

# Sets `things` to the bytes of the sources, reports and logs of 100 projects as they are in memory, each once.
count_things() {
  sources=$(awk '/^submit/ { n += $3 } END { print n }' "$room/in")
  things=$((sources + 100 * (16 + 4 * 64) * note + 100 * 64 * (order + report)))
}

echo
script 100 16 64 all > "$room/in"
measure
echo "100 projects with the same modules, 33,600 commands: at most $most bytes in blocks, for $text bytes read and written"
[ "$most" -lt $((text * 3)) ] || bad=1

script 100 16 64 own > "$room/in"
measure
count_things
echo "100 projects with modules of their own: at most $most bytes in blocks, for $text bytes read and written, and $things bytes of sources, reports and logs in memory"
[ "$most" -lt $((things * 3)) ] || bad=1

script 10 16 64 own > "$room/in"
measure
before=$most
awk 'BEGIN { for (n = 1; n <= 10; n++) for (t = 1; t <= 64; t++) for (p = 1; p <= 10; p++) printf "fetch %d %d\n", p, t }' > "$room/more"
lines=$(wc -c < "$room/more")
cat "$room/more" >> "$room/in"
measure
each=$(((most - before - lines) / 6400))
echo "one more fetch: $each bytes, beside its line, where a note had $note and a report $report when the bound was set"
[ "$each" -lt $((note + report)) ] || bad=1

awk 'BEGIN {
  line = "% a line of comment, of which there are many in this source\n"
  while (length(comment) + length(line) < 60000) comment = comment line
  for (p = 1; p <= 100; p++) {
    text = "-module(m).\n-export([main/0]).\n% of project " p "\n" comment "main() -> 1.\n"
    printf "submit %d %d\n%s\n", p, length(text), text
  }
}' > "$room/in"
measure
echo "100 sources of 60,000 bytes: at most $most bytes in blocks, for $text bytes read and written"
[ $((most * 10)) -lt $((text * 25)) ] || bad=1

# ---- what a call costs: the calls of $room/calls, after what is in $room/before

# Sets `each` to the nanoseconds that one of the calls takes.
cost() {
  cp "$room/before" "$room/in"
  took=$(least)
  cat "$room/calls" >> "$room/in"
  each=$((($(least) - took) / $(wc -l < "$room/calls")))
}

# $1 projects with a module and $2 trials each; the module is that of all.
opened() {
  awk -v projects="$1" -v trials="$2" 'BEGIN {
    text = "-module(m).\n-export([main/0]).\nmain() -> 1 + 2 * 3.\n"
    for (p = 1; p <= projects; p++) printf "submit %d %d\n%s\n", p, length(text), text
    for (t = 1; t <= trials; t++) for (p = 1; p <= projects; p++) printf "order %d 1 main returns none 1\n", p
  }'
}

# $2 rounds of $1 projects that order, ask how far the trial is and for its report, drop it, and ask for usage and log;
# $3 trials were ordered before.
rounds() {
  awk -v projects="$1" -v rounds="$2" -v trials="$3" 'BEGIN {
    for (r = 1; r <= rounds; r++) {
      t = trials + r
      for (p = 1; p <= projects; p++) printf "order %d 1 main returns none 1\n", p
      for (p = 1; p <= projects; p++) printf "status %d %d\n", p, t
      for (p = 1; p <= projects; p++) printf "fetch %d %d\n", p, t
      for (p = 1; p <= projects; p++) printf "drop %d %d\n", p, t
      for (p = 1; p <= projects; p++) printf "usage %d\nlog %d\n", p, p
    }
  }'
}

# $2 rounds of $1 projects that ask how far their first trial is, for their usage and for their log.
questions() {
  awk -v projects="$1" -v rounds="$2" 'BEGIN {
    for (r = 1; r <= rounds; r++) for (p = 1; p <= projects; p++) printf "status %d 1\nusage %d\nlog %d\n", p, p, p
  }'
}

# Prints the costs $2 and $4 of a call in the cases $1 and $3, and marks a second one that is over 1.5 times the first.
tell_costs() {
  echo "| $1 | $2 ns |"
  echo "| $3 | $4 ns |"
  [ $(($4 * 10)) -le $(($2 * 15)) ] || bad=1
}

echo
echo "| a call | costs |"
echo "|---|---|"
opened 10 0 > "$room/before"
rounds 10 1000 0 > "$room/calls"
cost
few=$each
opened 10000 0 > "$room/before"
rounds 10000 1 0 > "$room/calls"
cost
tell_costs 'among 10 projects' "$few" 'among 10,000 projects' "$each"

opened 50 1 > "$room/before"
questions 50 300 > "$room/calls"
cost
early=$each
questions 50 3000 >> "$room/before"
cost
tell_costs 'with an empty log' "$early" 'with a log of over 9,000 calls' "$each"

opened 100 0 > "$room/before"
rounds 100 100 0 > "$room/calls"
cost
first=$each
opened 100 63 > "$room/before"
rounds 100 100 63 > "$room/calls"
cost
tell_costs 'at the first trial' "$first" 'at the 64th trial' "$each"

# ---- what is given back

# $1 rounds of one project that orders 64 trials with long reports, has them run, and drops them.
dropped() {
  awk -v rounds="$1" 'BEGIN {
    text = "-module(m).\n-export([main/0]).\nmain() -> flood(200).\nflood(0) -> done; flood(N) -> self() ! N, flood(N - 1).\n"
    printf "submit 1 %d\n%s\n", length(text), text
    for (r = 0; r < rounds; r++) {
      for (t = 1; t <= 64; t++) print "order 1 1 main returns none 10000"
      for (t = 1; t <= 64; t++) printf "claim 0 1 %d\nslice 0 1 %d 10000\nfile 0 1 %d\n", 64 * r + t, 64 * r + t, 64 * r + t
      for (t = 1; t <= 64; t++) printf "drop 1 %d\n", 64 * r + t
    }
  }'
}

echo
dropped 1 > "$room/in"
measure
before=$most
lines=$text
dropped 20 > "$room/in"
measure
each=$(((most - before - (text - lines)) / (19 * 64)))
echo "a trial that is run and dropped, with a long report: $each bytes, beside its lines"
[ "$each" -lt $((8 * note + 2 * order)) ] || bad=1

awk 'BEGIN {
  for (n = 1; n <= 2000; n++) {
    text = "-module(m).\n-export([main/0]).\nmain() -> " n
    for (k = 1; k <= 200; k++) text = text " + " k
    text = text ".\n"
    printf "submit 1 %d\n%s\nwithdraw 1 %d\n", length(text), text, n
  }
}' > "$room/in"
measure
echo "2,000 modules that are withdrawn: at most $most bytes in blocks, for $text bytes read and written"
[ "$most" -lt $((text * 3)) ] || bad=1
exit "$bad"
