#!/bin/sh
# Runs each block of Erlang in docs/FROM_ERLANG.md, docs/LANGUAGE.md and docs/TUTORIAL.md: its `main` evaluates to
# `true`, by the schedule of zeros and by each seed below 200. After a line `<!-- fails PROPERTY -->` a hunt has to find
# a seed below 1,000 that fails; a block of plain Erlang, `erlang plain`, is refused. The three commands of README.md
# are run too, and its picture is what they write.
#
# Usage: run.sh [BINARY]; the program is that of the crate `pulsefarm` where none is named.
set -u
top=$(cd "$(dirname "$0")/../../.." && pwd)
# shellcheck source=tests/compare.sh
. "$top/tests/compare.sh"

# The blocks of the page $1, as $room/PAGE_N.erl, each with a file of what is wanted of it.
blocks() {
  awk -v out="$room/$(basename "$1" .md)_" '
    /^<!-- fails / { wanted = $3 }
    /^```erlang plain$/ { wanted = "refused" }
    /^```erlang/ { inside = 1; count++; file = out count ".erl"; print (wanted == "" ? "holds" : wanted) > (file ".wanted"); wanted = ""; next }
    /^```$/ { if (inside) close(file); inside = 0 }
    inside { print > file }
  ' "$1"
}

for page in FROM_ERLANG LANGUAGE TUTORIAL; do
  [ -f "$top/docs/$page.md" ] && blocks "$top/docs/$page.md"
done
count=0
for block in "$room"/*.erl; do
  count=$((count + 1))
  wanted=$(cat "$block.wanted")
  name=$(basename "$block" .erl)
  if [ "$wanted" = holds ]; then
    timeout 120 "$program" hunt "$block" --root main --limit 100000 --property true --seeds 0..200 > "$room/out" \
      2> "$room/err" < /dev/null
    note "$name comes to true by each seed" $?
  elif [ "$wanted" = refused ]; then
    timeout 120 "$program" check --explain "$block" > "$room/out" 2> "$room/err" < /dev/null
    [ $? = 2 ]
    note "$name is refused" $?
  else
    timeout 120 "$program" hunt "$block" --root main --limit 100000 --property "$wanted" --seeds 0..1000 > "$room/out" \
      2> "$room/err" < /dev/null
    [ $? = 1 ]
    note "$name fails $wanted" $?
  fi
done
[ "$count" -ge 10 ]
note 'there are ten blocks or more' $?

# The commands of README.md, in a folder from which `examples` is seen.
mkdir "$room/bin" "$room/readme"
ln -s "$program" "$room/bin/pulsefarm"
ln -s "$top/examples" "$room/readme/examples"
sed -n 's/^\$ \(pulsefarm [a-z].*\)/\1/p' "$top/README.md" > "$room/readme/commands"
[ "$(wc -l < "$room/readme/commands")" = 3 ]
note 'README.md has three commands' $?
# The first two end with the status of a failing run.
(cd "$room/readme" && PATH="$room/bin:$PATH" && export PATH &&
  sed -n 1p commands > one && sh ./one; [ $? = 1 ] && sed -n 2p commands > one && sh ./one; [ $? = 1 ] &&
  sed -n 3p commands > one && sh ./one) > "$room/out" 2> "$room/err" < /dev/null
note 'the commands of README.md find, play back and draw' $?
cmp -s "$room/readme/race.svg" "$top/docs/race.svg"
note 'the picture of README.md is that of its commands' $?
tell_counts
