#!/bin/sh
# Hunts over the modules of examples/ and compares what is reported with `run` and `shrink` of the same seeds: the least
# seed that fails, its choices and its report; each outcome with its seeds; and that the number of workers makes no
# difference. All of it by both strategies; the schedule of each seed that is found runs so again.
#
# Usage: run.sh [BINARY]; the program is that of the crate `pulsefarm` where none is named.
set -u
top=$(cd "$(dirname "$0")/../../.." && pwd)
# shellcheck source=tests/compare.sh
. "$top/tests/compare.sh"
examples=$top/examples

# Runs the program under the words from $2 on; leaves its output in the file $1 and its status.
prints() {
  file=$1
  shift
  timeout 120 "$program" "$@" > "$file" 2> "$room/err" < /dev/null
  status=$?
}

# The verdict and the outcome of the report $1, on one line.
outcome_of() {
  awk '/^(finished|ended|deadlock|limit|memory)/ { outcome = $0 } /^property/ { verdict = $2 } END { print verdict " " outcome }' "$1"
}

# The least of the seeds from $3 to before $4 by which the property $2 of the module $1 fails, one run after another;
# nothing where none does.
least_by_runs() {
  seed=$3
  while [ "$seed" -lt "$4" ]; do
    prints "$room/report" run "$examples/$1.erl" --root main --limit 2000 --property "$2" --seed "$seed" \
      --strategy "$strategy"
    if [ "$status" = 1 ]; then
      echo "$seed"
      return
    fi
    seed=$((seed + 1))
  done
}

# What a hunt reports of the seed $3, by which the property $2 of the module $1 fails; the report stays in `report`.
failure() {
  prints "$room/report" run "$examples/$1.erl" --root main --limit 2000 --property "$2" --seed "$3" --strategy "$strategy"
  printf 'seed %s\n' "$3"
  [ "$strategy" = uniform ] || echo 'strategy pos'
  printf 'schedule %s\n' "$(choices_of "$room/report")"
}

# The least seed that fails, from each of some seeds on, by one worker and by several.
first() {
  for start in 0 1 2 5; do
    least=$(least_by_runs "$1" "$2" "$start" 200)
    { failure "$1" "$2" "$least"; cat "$room/report"; } > "$room/wanted"
    cp "$room/report" "$room/by_seed"
    prints "$room/again" run "$examples/$1.erl" --root main --limit 2000 --property "$2" \
      --schedule "$(choices_of "$room/by_seed")"
    if cmp -s "$room/by_seed" "$room/again"; then pass; else fail "$1: the schedule of seed $least runs otherwise"; fi
    for workers in 1 2 3 4 64; do
      compare "$1 from $start by $workers" 1 /dev/null "$room/wanted" \
        hunt "$examples/$1.erl" --root main --limit 2000 --property "$2" --seeds "$start..200" --workers "$workers" \
        --strategy "$strategy"
    done
    compare "$1 from $start to its seed" 1 /dev/null "$room/wanted" \
      hunt "$examples/$1.erl" --root main --limit 2000 --property "$2" --seeds "$start..$((least + 1))" \
      --strategy "$strategy"
    if [ "$start" -lt "$least" ]; then
      echo "no failure in $((least - start)) seeds" > "$room/wanted"
      compare "$1 from $start to before its seed" 0 /dev/null "$room/wanted" \
        hunt "$examples/$1.erl" --root main --limit 2000 --property "$2" --seeds "$start..$least" --strategy "$strategy"
    fi
  done
}

# The schedule of the least seed that fails, and what `shrink` reports of it.
shrunk() {
  least=$(least_by_runs "$1" "$2" 0 200)
  failure "$1" "$2" "$least" > "$room/wanted"
  schedule=$(choices_of "$room/report")
  prints "$room/shrunk" shrink "$examples/$1.erl" --root main --limit 2000 --property "$2" --schedule "$schedule" \
    --runs "$3"
  cat "$room/shrunk" >> "$room/wanted"
  compare "$1, shrunk within $3 runs" 1 /dev/null "$room/wanted" \
    hunt "$examples/$1.erl" --root main --limit 2000 --property "$2" --seeds 0..200 --shrink "$3" --strategy "$strategy"
}

# Each outcome of the seeds from 3 to before 63, by one worker and by several, against the reports of these seeds.
outcomes() {
  seed=3
  : > "$room/outcomes"
  while [ "$seed" -lt 63 ]; do
    prints "$room/report" run "$examples/$1.erl" --root main --limit 2000 --property "$2" --seed "$seed" \
      --strategy "$strategy"
    echo "$seed $(outcome_of "$room/report")" >> "$room/outcomes"
    seed=$((seed + 1))
  done
  awk '{ seed = $1; verdict = $2; sub(/^[^ ]* [^ ]* /, "") }
    !((verdict, $0) in count) { order[++rows] = verdict SUBSEP $0; least[verdict, $0] = seed }
    { count[verdict, $0]++ }
    END { for (i = 1; i <= rows; i++) {
      split(order[i], part, SUBSEP)
      print part[1] " " count[order[i]] " seeds, least " least[order[i]] ": " part[2]
    } }' "$room/outcomes" > "$room/rows"
  { [ "$strategy" = uniform ] || echo 'strategy pos'; cat "$room/rows"; } > "$room/wanted"
  wanted_status=0
  ! grep -q '^fails' "$room/wanted" || wanted_status=1
  for workers in 1 2 3 4 64; do
    compare "outcomes of $1 by $workers" "$wanted_status" /dev/null "$room/wanted" \
      hunt "$examples/$1.erl" --root main --limit 2000 --property "$2" --seeds 3..63 --all --workers "$workers" \
      --strategy "$strategy"
  done
}

# The number in the line that says that a hunt stopped; nothing where the first line of the output says something else.
stopped_after() { sed -n '1s/^stopped after \([1-9][0-9]*\) seeds$/\1/p' "$room/out"; }

# Hunts of the module $1 for a time: each stops soon, and reports of the seeds that it ran what a hunt over these seeds
# reports.
for_a_time() {
  asked="$examples/$1.erl --root main --limit 2000"
  # The words in `$asked` have no blanks in them.
  # shellcheck disable=SC2086
  {
    began=$(date +%s)
    prints "$room/out" hunt $asked --property withinlimit --for 1s
    number=$(stopped_after)
    printf 'stopped after %s seeds\nno failure in %s seeds\n' "$number" "$number" > "$room/wanted"
    note "$1 for a second, from seed 0" \
      "$([ -n "$number" ] && [ "$status" = 0 ] && cmp -s "$room/out" "$room/wanted"; echo $?)"
    note "$1 for a second takes no ten" "$([ $(($(date +%s) - began)) -lt 10 ]; echo $?)"
    prints "$room/out" hunt $asked --property "$2" --seeds 7..1000000000 --for 1s --all --strategy "$strategy"
    number=$(stopped_after)
    wanted_status=$status
    sed 1d "$room/out" > "$room/wanted"
    note "$1 for a second, each outcome" "$([ -n "$number" ]; echo $?)"
    compare "$1, the outcomes of as many seeds" "$wanted_status" /dev/null "$room/wanted" \
      hunt $asked --property "$2" --seeds "7..$((7 + ${number:-1}))" --all --strategy "$strategy"
    echo 'no failure in 40 seeds' > "$room/wanted"
    compare "$1 over 40 seeds, for an hour" 0 /dev/null "$room/wanted" hunt $asked --property withinlimit \
      --seeds 5..45 --for 1h
    prints "$room/wanted" hunt $asked --property "$2" --seeds 0..200 --strategy "$strategy"
    compare "$1 fails within a time" 1 /dev/null "$room/wanted" hunt $asked --property "$2" --seeds 0..200 --for 60m \
      --strategy "$strategy"
    compare "$1 fails within a time, without seeds" 1 /dev/null "$room/wanted" hunt $asked --property "$2" --for 60m \
      --strategy "$strategy"
  }
}

# Words that are no time, and a hunt without seeds and a time, which is over the first 10,000.
times_refused() {
  : > "$room/wanted"
  asked="$examples/$1.erl --root main --limit 2000 --property true"
  # The words in `$asked` have no blanks in them.
  # shellcheck disable=SC2086
  {
    for time in 0s 5 s 05s 5S 5ms 1.5s -1s +1s 4294967296s; do
      compare "a time of $time" 2 /dev/null "$room/wanted" hunt $asked --seeds 0..5 --for="$time"
      note "a time of $time is named" "$(grep -q "invalid value '$time' for '--for <T>'" "$room/err"; echo $?)"
    done
    echo 'no failure in 10000 seeds' > "$room/wanted"
    compare 'no seeds and no time' 0 /dev/null "$room/wanted" hunt "$examples/lost_update_mended.erl" --root main \
      --limit 2000 --property true
  }
}

# Properties with an atom that occurs nowhere in the module: the same goes out, and standard error says so. $1 is the
# module, $2 an atom that it has.
lacking() {
  echo 'no failure in 5 seeds' > "$room/wanted"
  : > "$room/silent"
  said='pulsefarm: no message fits the pattern of the property: its atom `nowhere_at_all` stands nowhere in the module'
  asked="$examples/$1.erl --root main --limit 2000"
  # The words in `$asked` have no blanks in them.
  # shellcheck disable=SC2086
  {
    compare 'an atom that the module lacks' 0 /dev/null "$room/wanted" hunt $asked --seeds 0..5 \
      --property 'never:{X,nowhere_at_all,other}'
    note 'the atom is named' "$([ "$(cat "$room/err")" = "$said" ]; echo $?)"
    prints "$room/out" run $asked --seed 1 --property 'never:nowhere_at_all'
    note 'a run names it too' \
      "$([ "$(cat "$room/err")" = "$said" ] && [ "$(tail -n 1 "$room/out")" = 'property holds' ]; echo $?)"
    prints "$room/out" chart $asked --seed 1 --property 'never:nowhere_at_all'
    note 'a chart names it too' "$([ "$(cat "$room/err")" = "$said" ]; echo $?)"
    prints "$room/out" shrink $asked --schedule none --runs 2 --property 'never:nowhere_at_all'
    note 'a shrinking says that nothing fails' "$(grep -q 'nothing to shrink' "$room/err"; echo $?)"
    for property in returns 'never:{X,Y,Z,7}' "never:{$2,'EXIT',noproc,X,Y,Z}"; do
      prints "$room/out" run $asked --seed 1 --property "$property"
      note "nothing is said of $property" "$(cmp -s "$room/err" "$room/silent"; echo $?)"
    done
  }
}

# Of the properties from $4 on the first that fails of the module $1 by the seed $2, with the report of that run in
# `report`; nothing where none does. The limit is $3.
first_failed() {
  source=$1 seed=$2 limit=$3
  shift 3
  for property in "$@"; do
    prints "$room/report" run "$source" --root main --limit "$limit" --property "$property" --seed "$seed" \
      --strategy "$strategy"
    if [ "$status" = 1 ]; then
      echo "$property"
      return
    fi
  done
}

# The least seed below 60 by which one of the properties from $3 on fails of the module $1, what is reported of it, and
# what comes after where its schedule is shrunk, against runs and shrinkings with each of them; $2 is the limit.
several() {
  source=$1 limit=$2
  shift 2
  named=
  for property in "$@"; do named="$named --property $property"; done
  seed=0 first=
  while [ "$seed" -lt 60 ]; do
    first=$(first_failed "$source" "$seed" "$limit" "$@")
    [ -z "$first" ] || break
    seed=$((seed + 1))
  done
  wanted_status=1
  if [ -z "$first" ]; then
    echo 'no failure in 60 seeds' > "$room/wanted"
    wanted_status=0
  else
    prints "$room/report" run "$source" --root main --limit "$limit" --property "$first" --seed "$seed" \
      --strategy "$strategy"
    schedule=$(choices_of "$room/report")
    { printf 'seed %s\nfails %s\n' "$seed" "$first"; [ "$strategy" = uniform ] || echo 'strategy pos'
      printf 'schedule %s\n' "$schedule"; } > "$room/front"
    cat "$room/front" "$room/report" > "$room/wanted"
  fi
  # The words in `$named` have no blanks in them.
  # shellcheck disable=SC2086
  {
    for workers in 1 4; do
      compare "$source by$named by $workers" "$wanted_status" /dev/null "$room/wanted" \
        hunt "$source" --root main --limit "$limit" --seeds 0..60 --workers "$workers" --strategy "$strategy" $named
    done
    [ -n "$first" ] || return
    prints "$room/shrunk" shrink "$source" --root main --limit "$limit" --property "$first" --schedule "$schedule" \
      --runs 100
    cat "$room/front" "$room/shrunk" > "$room/wanted"
    compare "$source by$named, shrunk" 1 /dev/null "$room/wanted" hunt "$source" --root main --limit "$limit" \
      --seeds 0..60 --shrink 100 --strategy "$strategy" $named
  }
}

# Several properties at once: one run a seed, the least seed that fails one of them, and of these the first.
several_properties() {
  # By some seeds the last fails alone, by others the first does; a message is sent in each run.
  printf '%s\n' '-module(s).' '-export([main/0, w/2]).' 'main() ->' '  A = spawn(?MODULE, w, [self(), 0]),' \
    '  spawn(?MODULE, w, [self(), 1]),' '  receive {A, N} -> N end, receive {_, M} -> 1 div M, true end.' \
    'w(P, N) -> P ! {self(), N}.' > "$room/several.erl"
  for strategy in uniform pos; do
    for source in "$examples/two_locks.erl" "$examples/unexpected_messages.erl" "$room/several.erl"; do
      several "$source" 2000 returns nocrash nodeadlock
      several "$source" 2000 nodeadlock nocrash returns
      several "$source" 2000 withinlimit true nocrash
      several "$source" 12 nocrash withinlimit
      several "$source" 2000 withinlimit 'never:{X,Y}' returns
    done
    several "$examples/two_locks_mended.erl" 2000 returns nocrash nodeadlock
  done
  asked="$examples/two_locks.erl --root main --limit 2000 --seeds 0..60"
  # The words in `$asked` have no blanks in them.
  # shellcheck disable=SC2086
  {
    prints "$room/wanted" hunt $asked --property returns --property nocrash --property nodeadlock
    compare 'no property' "$status" /dev/null "$room/wanted" hunt $asked
    prints "$room/wanted" hunt $asked --property returns --all
    compare 'each outcome without a property' "$status" /dev/null "$room/wanted" hunt $asked --all
    : > "$room/wanted"
    compare 'each outcome of several properties' 2 /dev/null "$room/wanted" hunt $asked --all --property true \
      --property returns
    note 'several properties are named' \
      "$(grep -q "'--all' cannot be used with several properties" "$room/err"; echo $?)"
    echo P1 > "$room/wanted"
    compare 'a second property that is none' 2 /dev/null "$room/wanted" hunt $asked --property true --property truth
    note 'the text that is none is named' "$(grep -q 'there is no property `truth`' "$room/err"; echo $?)"
  }
}

# What is refused: $1 names it, $2 is the source, $3 the text, and then come the words.
refused() {
  name=$1 source=$2
  printf '%s\n' "$3" > "$room/wanted"
  shift 3
  printf -- "$source" > "$room/source"
  compare "$name" 2 "$room/source" "$room/wanted" hunt "$@"
}

refusals() {
  module='-module(m).\n-export([main/0]).\nmain() -> ok.\n'
  asked='--root main --limit 9 --property true --seeds 0..5'
  # The words in `$asked` have no blanks in them.
  # shellcheck disable=SC2086
  {
    refused 'a source that is none' '-module(m).\n-export([main/0]).\nmain() -> X.\n' 'E6 at 41' $asked
    refused 'a root that is none' "$module" B2 --root other --limit 9 --property truth --seeds 0..5
    refused 'a property that is none' "$module" P1 --root main --limit 0 --property truth --seeds 0..5
    refused 'a limit out of range' "$module" B6 --root main --limit 100001 --property true --seeds 0..5
    refused 'no runs of a shrinking' "$module" B6 $asked --shrink 0
    refused 'too many runs of a shrinking' "$module" B6 $asked --shrink 1001
  }
}

races > "$room/table"
while read -r module property _; do
  for strategy in uniform pos; do
    first "$module" "$property"
    shrunk "$module" "$property" 1
    shrunk "$module" "$property" 300
    outcomes "$module" "$property"
  done
  strategy=pos
  for_a_time "$module" "$property"
done < "$room/table"
times_refused lost_update
lacking stale_monitor main
several_properties
refusals
tell_counts
