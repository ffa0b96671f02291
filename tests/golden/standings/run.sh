#!/bin/sh
# Checks what `run --explain` says of the processes of runs, against the lines of `told`, which were written by hand; by
# a seed, by a strategy and by a schedule. Standard output is that of the run without the word.
#
# Usage: run.sh [BINARY]; the program is that of the crate `pulsefarm` where none is named.
set -u
here=$(cd "$(dirname "$0")" && pwd)
top=$here/../../..
# shellcheck source=tests/compare.sh
. "$top/tests/compare.sh"
cd "$room" || exit 2

# Runs a root of a source by the words from $3 on, with the word and without, and compares what is said with what is
# wanted.
check() {
  file=$here/$1.erl name=$2
  shift 2
  timeout 60 "$program" run --root "$name" --limit 1000 "$@" "$file" > plain 2> /dev/null < /dev/null
  before=$?
  timeout 60 "$program" run --explain --root "$name" --limit 1000 "$@" "$file" > out 2> said < /dev/null
  status=$?
  grep '^pulsefarm: <' said | sed 's/^pulsefarm: //' > err
  [ "$status" = "$before" ] && cmp -s plain out && cmp -s wanted err
  note "$name of $(basename "$file") by $*" $?
}

# Each run of the list.
source='' root=''
while IFS= read -r line || [ -n "$line" ]; do
  case $line in
    '#'*) ;;
    '<'*) printf '%s\n' "$line" >> wanted.next ;;
    *)
      if [ -n "$source" ]; then
        mv wanted.next wanted
        check "$source" "$root" --seed 0
        check "$source" "$root" --seed 7 --strategy pos
        check "$source" "$root" --schedule none
      fi
      source=${line% *} root=${line#* }
      : > wanted.next ;;
  esac
done << END
$(cat "$here/told")
end end
END

# Nothing is said of a run that is refused.
: > wanted
for words in '--root missing --limit 10 --seed 0' '--root sum --limit 0 --seed 0'; do
  # shellcheck disable=SC2086
  timeout 60 "$program" run --explain $words "$here/faults.erl" > out 2> said < /dev/null
  grep '^pulsefarm: <' said > err
  cmp -s wanted err
  note "run --explain $words" $?
done

# The heads of a chart have the functions in whose calls processes began, and a tooltip says who spawned them.
timeout 60 "$program" chart --root main --limit 1000 --seed 0 "$here/counter.erl" > out 2> err < /dev/null
for words in '>main/0</text>' '>counter/1</text>' '>asks/1</text>' \
  '<title>&lt;1&gt; counter/1 spawned by &lt;0&gt; in event 1</title>'; do
  grep -qF "$words" out
  note "the chart has $words" $?
done
tell_counts
