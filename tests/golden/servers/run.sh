#!/bin/sh
# Five servers, from plain Erlang to a first hunt: each round of a server follows what `check --explain` said of the
# round before, and nothing else. `told` has by hand what is said of each round: here it is compared with the answer,
# place by place, and each place has to come with its rewrite. The first round has to be Erlang that `erlc` takes
# without a word, and the last one too; that is taken by the language, and a hunt finds its race.
#
# Usage: run.sh [BINARY]; the program is that of the crate `pulsefarm` where none is named.
set -u
here=$(cd "$(dirname "$0")" && pwd)
top=$here/../../..
# shellcheck source=tests/compare.sh
. "$top/tests/compare.sh"
"$top/tests/erlang/erlang.sh"

# The places of round $2 of the server $1 by `told`: where each text occurs first in its line.
places() {
  sed -n "s/^$1 $2 //p" "$here/told" | while read -r line word; do
    sed -n "${line}p" "$here/$1/$2.erl" | awk -v line="$line" -v word="$word" \
      '{ print "line " line ", column " index($0, word) }'
  done
}

# Compares the answer to round $2 of the server $1 with its places.
refused() {
  timeout 120 "$program" check --explain "$here/$1/$2.erl" > "$room/out" 2> "$room/err" < /dev/null
  [ $? = 2 ]
  note "$1, round $2: refused" $?
  places "$1" "$2" > "$room/places"
  grep '^line ' "$room/out" | cmp -s - "$room/places"
  note "$1, round $2: what is told" $?
  [ "$(grep -c '^  write  ' "$room/out")" = "$(wc -l < "$room/places")" ]
  note "$1, round $2: a rewrite for each" $?
}

# The round $2 of the server $1 is Erlang.
compiled() {
  cp "$here/$1/$2.erl" "$room/$1.erl"
  (cd "$room" && erlc "$1.erl") > "$room/out" 2> "$room/err" && [ ! -s "$room/out" ]
  note "$1, round $2: erlc" $?
}

for server in account cache limiter leader pool; do
  round=0
  compiled "$server" 0
  while [ -e "$here/$server/$((round + 1)).erl" ]; do
    refused "$server" "$round"
    round=$((round + 1))
  done
  compiled "$server" "$round"
  echo ok > "$room/wanted"
  compare "$server, round $round" 0 "$here/$server/$round.erl" "$room/wanted" check --explain
  timeout 120 "$program" hunt "$here/$server/$round.erl" --property true > "$room/out" 2> "$room/err" < /dev/null
  [ $? = 1 ] && [ "$(sed -n '1s/ .*//p' "$room/out")" = seed ] && [ "$(tail -n 1 "$room/out")" = 'property fails' ]
  note "$server: a hunt finds its race" $?
done
[ "$passed" -ge 100 ]
note 'there are a hundred checks or more' $?
tell_counts
