#!/bin/sh
# Times the reader, from bytes to a checked module, in the build that LLVM makes, over sources of 1, 8 and 64 KiB of two
# shapes, and over sources of 64 KiB whose names are chosen to be slow; and takes the memory of a module for each byte
# of its source. It prints tables for docs/SPEED.md, and fails where a byte costs over 1.5 times as much in a source of
# one shape as in another of it, or where a byte of a chosen source costs over 3 times as much as one of the longest
# plain source. By the memory it doesn't fail. With a word it takes that program, which `bench/program.sh reader
# PROGRAM` has built.
set -eu
here=$(cd "$(dirname "$0")" && pwd)
room=$(mktemp -d)
trap 'rm -rf "$room"' EXIT
program=${1:-$room/reader}
[ $# -gt 0 ] || sh "$here/program.sh" reader "$program"
cc -O2 -shared -fPIC -o "$room/blocks.so" "$here/../tests/faults/refused/refuse.c" -ldl

bad=0
"$program" | awk '
  $1 == "chosen" {
    if (times == 0) { print ""; print "| names | a byte | times a plain source |"; print "|---|---|---|" }
    if ($3 > times * plain) times = $3 / plain
    printf "| %s | %.1f ns | %.1f |\n", $2, $3 / 1000, $3 / plain
    next
  }
  NR == 1 { print "| shape | bytes at most | a byte | bytes a second |"; print "|---|---|---|---|" }
  {
    if (least[$1] == 0 || $3 < least[$1]) least[$1] = $3
    if ($3 > most[$1]) most[$1] = $3
    if ($1 == "plain") plain = $3
    printf "| %s | %s | %.1f ns | %.1f million |\n", $1, $2, $3 / 1000, 1000000 / $3
  }
  END { for (shape in most) if (most[shape] > 1.5 * least[shape]) exit 1; exit times > 3 }' || bad=1

# A source of 60,000 bytes at most: functions `fN`, each with what $1 makes of its line by awk.
source() {
  awk -v shape="$1" '
    function many(part, last,  text, k) { for (k = 1; k < 200; k++) text = text part; return text last }
    BEGIN {
      text = "-module(m).\n"
      for (n = 1; ; n++) {
        if (shape == "plain") body = sprintf("f%d(X, Y) -> Z = X + Y * 2, case Z rem 7 of 0 -> f%d(Y, -1); W -> (W - a) end.\n", n, n)
        if (shape == "strings") body = sprintf("f%d() -> \"%s\".\n", n, many("a", "a"))
        if (shape == "bodies") body = sprintf("f%d() -> %s.\n", n, many("1,", "1"))
        if (shape == "lists") body = sprintf("f%d() -> [%s].\n", n, many("1,", "1"))
        if (shape == "tuples") body = sprintf("f%d() -> {%s}.\n", n, many("1,", "1"))
        if (shape == "sums") body = sprintf("f%d() -> %s.\n", n, many("1+", "1"))
        if (shape == "patterns") body = sprintf("f%d([%s]) -> 1.\n", n, many("_,", "_"))
        if (shape == "negations") body = sprintf("f%d(X) -> %s.\n", n, many("-X,", "X"))
        if (shape == "empty tuples") body = sprintf("f%d() -> %s.\n", n, many("{},", "1"))
        if (shape == "guards") body = sprintf("f%d() when %s -> 1.\n", n, many("1;", "1"))
        if (shape == "atoms") body = sprintf("f%d() -> {%s}.\n", n, many("a,", "a"))
        if (length(text) + length(body) > 60000) break
        text = text body
      }
      printf "%s", text
    }' > "$room/source"
}

# The bytes that are in blocks at most where a module is read and kept $1 times.
most() {
  LD_PRELOAD="$room/blocks.so" BLOCKS_TOLD="$room/blocks" "$program" "$1" < "$room/source" > "$room/kept"
  [ "$(cat "$room/kept")" = "$1 kept" ] || { echo "a source isn't read" >&2; exit 1; }
  sed -n 's/.*, \([0-9]*\) bytes at most$/\1/p' "$room/blocks"
}

echo
echo "| source | memory for a byte |"
echo "|---|---|"
for shape in plain tuples atoms guards bodies lists sums patterns negations "empty tuples" strings; do
  source "$shape"
  length=$(wc -c < "$room/source")
  tenths=$((($(most 24) - $(most 8)) * 10 / 16 / length))
  echo "| $shape | $((tenths / 10)).$((tenths % 10)) bytes |"
done
exit "$bad"
