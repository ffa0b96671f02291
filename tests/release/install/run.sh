#!/bin/sh
# Installs from a small tree by a `rt` of its own (tests/release/install/rt): what is proved and in which copy, what is
# printed, and that a run which was stopped goes on where it was, one that fails says why, and nothing is left behind.
# Then the order in which crates are proved (lanes.py). Where no BINARY is named, as at the gate, the tree itself is
# installed too, from what the gate has proved, and previewed.
#
# Usage: run.sh [BINARY]; the program is that of the crate `pulsefarm` where none is named.
set -u
top=$(cd "$(dirname "$0")/../../.." && pwd)
at_gate=$(($# == 0))
# shellcheck source=tests/compare.sh
. "$top/tests/compare.sh"
export FAKE="$room/fake" TMPDIR="$room/tmp" PYTHONDONTWRITEBYTECODE=1
unset RT_JOBS MOMENT CI
main_job=$(printf '%s\n' '0/1 <0> end normal' 'finished 7' 'steps 4' 'property holds')

# A tree of five crates of the program and one beside them, and a kit whose `rt` is a script.
lay() {
  rm -rf "$room/tree" "$room/kit" "$room/rattle-kept" "$FAKE" "$room/prefix" "$TMPDIR"
  mkdir -p "$room/tree/port" "$room/kit/bin" "$FAKE" "$TMPDIR"
  cp -r "$top/install.sh" "$top/install" "$room/tree"
  printf '%s\n' '# A line that names no crate.' 'low:' 'left: low' 'right may_abort=1: low indexmap' \
    'high: left right' 'beside: low' \
    'pulsefarm: high indexmap' > "$room/tree/crates.txt"
  echo 'Handles allowed: none.' > "$room/tree/HANDLES"
  for crate in low left right high beside pulsefarm; do
    mkdir -p "$room/tree/crates/$crate/src" "$room/tree/crates/$crate/must-fail" "$room/tree/crates/$crate/out"
    echo "// $crate" > "$room/tree/crates/$crate/src/lib.rt"
  done
  cp "$top/crates/pulsefarm/stdin" "$room/tree/crates/pulsefarm/stdin"
  # (the Erlang part has tests of its own)
  echo : > "$room/tree/port/build.sh"
  ln -s "$top/tests/release/install/rt" "$room/kit/rt"
  cp "$top/tests/release/install/rt" "$room/kit/bin/rt"
  echo none > "$FAKE/broken"
  cp "$program" "$FAKE/program"
  : > "$FAKE/begun"
}

# Runs install.sh over the small tree, in so many lanes.
install_in() {
  RT_JOBS=$1 PATH=$room/kit/bin:$PATH PREFIX=$room/prefix timeout 60 sh "$room/tree/install.sh" > "$room/out" \
    2> "$room/err"
  status=$?
}

# Whether these crates were begun, in this order.
were_begun() {
  [ "$(cut -d' ' -f1 "$FAKE/begun" | tr '\n' ' ')" = "$1 " ]
}

# Whether at least $1 crates were begun.
has_begun() { [ "$(wc -l < "$FAKE/begun")" -ge "$1" ]; }

# Waits until the words $@ hold.
wait_for() { until "$@"; do sleep 0.1; done; }

# Whether nothing is left of the copy, and no `rt` runs on.
is_tidy() {
  [ -z "$(ls -A "$TMPDIR")" ]
  empty=$?
  while read -r one; do
    if kill -0 "$one" 2> /dev/null; then empty=1; fi
  done < "$FAKE/pid"
  note "$1: nothing is left behind" $empty
}

whole() {
  lay
  install_in 1
  [ "$status" = 0 ] && [ "$(cat "$room/out")" = "$main_job" ]
  note "the main job is run (status $status)" $?
  cmp -s "$room/tree/crates/pulsefarm/out/pulsefarm" "$program" && cmp -s "$room/prefix/bin/pulsefarm" "$program"
  note "the program stands in the tree, and a link leads to it" $?
  printf '%s\n' 'low:' 'left: low' 'right may_abort=1: low indexmap' 'high: left right' 'pulsefarm: high indexmap' |
    cmp -s - "$FAKE/crates.txt"
  note "the copy has the lines of the program's crates" $?
  ! grep -q 'beside\|must-fail\|^out' "$FAKE/copy" && grep -qx .git "$FAKE/copy" && grep -qx HANDLES "$FAKE/copy"
  note "the copy has these crates alone, and is a repository" $?
  were_begun "low left right high pulsefarm"
  note "each crate is proved once" $?
  # (by the table each crate takes 100 seconds, and pulsefarm 588: one after another 988)
  cat > "$room/wanted" << 'END'
0 of 5 crates, 0 minutes so far, some 16 more
low proved; 1 of 5 crates, 0 minutes so far, some 15 more
left proved; 2 of 5 crates, 0 minutes so far, some 13 more
right proved; 3 of 5 crates, 0 minutes so far, some 11 more
high proved; 4 of 5 crates, 0 minutes so far, some 10 more
pulsefarm proved; 5 of 5 crates, 0 minutes so far, some 0 more
END
  grep ' crates, ' "$room/err" | cmp -s - "$room/wanted"
  note "crates done of all, minutes so far and minutes left" $?
  is_tidy "a whole run"
  : > "$FAKE/begun"
  : > "$FAKE/pid"
  install_in 1
  [ "$status" = 0 ] && [ ! -s "$FAKE/begun" ] &&
    grep -qx 'high is kept; 4 of 5 crates, 0 minutes so far, some 10 more' "$room/err"
  note "what is kept isn't proved again" $?
  [ "$(wc -l < "$FAKE/pid")" = 1 ]
  note "where all is kept there is one run" $?
  rm -r "$room/rattle-kept/proof-low-0"
  touch "$room/tree/crates/low/src/lib.rt"
  : > "$FAKE/begun"
  install_in 1
  [ "$status" = 0 ] && were_begun low
  note "what was changed is proved anew" $?
}

# Two crates of which neither needs the other are proved at once, by one job each; the longest chain has more.
side_by_side() {
  lay
  MOMENT=1 install_in 2
  [ "$status" = 0 ] && [ "$(sort "$FAKE/begun" | tr '\n' ' ')" = 'high 1 left 1 low 1 pulsefarm 2 right 1 ' ]
  note "each crate is proved once in two lanes, by one job" $?
  [ "$(sed -n '3,4s/ .*//p' "$FAKE/moments" | tr '\n' ' ')" = 'begins begins ' ]
  note "the two in the middle begin before one of them ends" $?
  lay
  CI=true MOMENT=0 install_in ''
  # (the first of the lanes has more jobs on four processors with 10 GB or more, where RT_JOBS is left as it was)
  lanes=$(PYTHONPATH=$top/install python3 -c 'import order; print(*order.lanes())')
  case $lanes in
    1*) wanted=1 ;;
    *) wanted= ;;
  esac
  [ "$status" = 0 ] && grep -qx "low $wanted" "$FAKE/begun" && grep -qx 'pulsefarm ' "$FAKE/begun"
  note "the longest chain has the wide lane ($lanes)" $?
}

# Where nothing is kept, as on a full disk, one run proves all, once the second run of a crate has shown so.
forgetful() {
  lay
  : > "$FAKE/forgets"
  install_in 1
  [ "$status" = 0 ] && [ "$(cat "$room/out")" = "$main_job" ] && [ "$(grep -c '^low ' "$FAKE/begun")" = 3 ] &&
    [ "$(tail -n 5 "$FAKE/begun" | cut -d' ' -f1 | tr '\n' ' ')" = 'low left right high pulsefarm ' ]
  note "where nothing is kept one run proves all (status $status)" $?
  is_tidy "a run that keeps nothing"
}

# Where `rt ci` takes no name, one run proves all, each once.
nameless() {
  lay
  : > "$FAKE/forgets"
  : > "$FAKE/nameless"
  install_in 1
  [ "$status" = 0 ] && [ "$(cat "$room/out")" = "$main_job" ] && were_begun "low left right high pulsefarm"
  note "a kit that takes no name of a crate proves all in one run (status $status)" $?
  is_tidy "a run without names"
}

# The group of a run gets the signal $1, as by Ctrl-C, while its third crate is proved.
stopped() {
  lay
  RT_JOBS=1 PATH=$room/kit/bin:$PATH PREFIX=$room/prefix MOMENT=1 setsid sh "$room/tree/install.sh" > "$room/out" \
    2> "$room/err" &
  group=$!
  wait_for has_begun 3
  kill -s "$1" -- "-$group"
  wait "$group"
  status=$?
  [ "$status" -gt 128 ] && [ ! -s "$room/out" ] && [ ! -e "$room/prefix" ]
  note "a run that is stopped by $1 ends (status $status)" $?
  sleep 0.2
  is_tidy "$1"
  : > "$FAKE/begun"
  install_in 1
  were_begun "right high pulsefarm"
  note "it goes on where it was stopped by $1" $?
  [ "$status" = 0 ] && [ "$(cat "$room/out")" = "$main_job" ]
  note "and comes to its end (status $status)" $?
}

# The driver alone says that it was stopped.
told_to_stop() {
  lay
  PATH=$room/kit/bin:$PATH MOMENT=30 python3 "$room/tree/install/prove.py" "$room/tree" > "$room/out" 2> "$room/err" &
  driver=$!
  wait_for test -s "$FAKE/begun"
  kill -INT "$driver"
  wait "$driver"
  status=$?
  [ "$status" = 130 ] && [ "$(tail -n 1 "$room/err")" \
    = 'stopped; what is proved is kept, and the same command goes on from there' ]
  note "the driver tells that it was stopped (status $status)" $?
}

# Under nohup it goes on where its terminal is closed.
hung_up() {
  lay
  PATH=$room/kit/bin:$PATH MOMENT=0.5 nohup python3 "$room/tree/install/prove.py" "$room/tree" > "$room/out" \
    2> "$room/err" < /dev/null &
  driver=$!
  wait_for test -s "$FAKE/begun"
  kill -HUP "$driver"
  wait "$driver"
  status=$?
  [ "$status" = 0 ] && [ -e "$room/tree/crates/pulsefarm/out/pulsefarm" ]
  note "under nohup it goes on (status $status)" $?
}

fails() {
  lay
  echo right > "$FAKE/broken"
  start=$(date +%s)
  install_in 2
  [ "$status" = 1 ] && [ $(($(date +%s) - start)) -lt 20 ]
  note "a crate that fails ends it at once (status $status)" $?
  { seq -f 'line %g of its log' 12 40; echo 'rt: right NOT PROVED'; } > "$room/wanted"
  tail -n 30 "$room/err" | cmp -s - "$room/wanted" && ! grep -qx 'line 11 of its log' "$room/err"
  note "the last 30 lines of its log are told" $?
  [ ! -e "$room/prefix/bin/pulsefarm" ] && [ ! -e "$room/tree/crates/pulsefarm/out/pulsefarm" ] && [ ! -s "$room/out" ]
  note "nothing is installed" $?
  is_tidy "a failure"
  lay
  : > "$FAKE/refusing"
  install_in 2
  [ "$status" = 1 ] && grep -qx 'rt: HANDLES is one line' "$room/err"
  note "what rt refuses is told (status $status)" $?
}

# On a terminal one line is written again and again.
terminal() {
  lay
  PATH=$room/kit/bin:$PATH script -qec "python3 $room/tree/install/prove.py $room/tree" /dev/null > "$room/out" \
    2> "$room/err" < /dev/null
  status=$?
  [ "$status" = 0 ] && [ "$(tr -cd '\r' < "$room/out" | wc -c)" -ge 6 ]
  note "a line on a terminal is written anew" $?
  [ "$(wc -l < "$room/out")" = 1 ] && grep -q 'pulsefarm proved; 5 of 5 crates, 0 minutes so far, some 0 more' \
    "$room/out"
  note "there is one line on a terminal" $?
}

# What the words or the machine lack.
refusals() {
  lay
  PATH=$(dirname "$(command -v python3)"):/usr/bin:/bin python3 "$room/tree/install/prove.py" "$room/tree" \
    > "$room/out" 2> "$room/err"
  [ $? = 1 ] && [ "$(cat "$room/err")" = 'there is no rt on the path: the kit rattle-kit-13f has it' ]
  note "no rt" $?
  python3 "$room/tree/install/prove.py" > "$room/out" 2> "$room/err"
  [ $? = 1 ] && [ "$(cat "$room/err")" = 'usage: prove.py TREE' ]
  note "no tree" $?
  sed -i '/^pulsefarm/d' "$room/tree/crates.txt"
  install_in 1
  [ "$status" = 1 ] && [ "$(cat "$room/err")" = 'crates.txt has no line of pulsefarm' ]
  note "no program" $?
}

# What preview.sh asks of `rt try`: each file that a word names, in a folder of its own, then the words, which name them
# there.
previews() {
  lay
  cp "$top/preview.sh" "$room/tree"
  mkdir -p "$room/a place"
  echo 'main() -> ok.' > "$room/a place/race.erl"
  echo none > "$room/a place/found"
  echo input | (
    cd "$room/a place" && PATH=$room/kit/bin:$PATH sh "$room/tree/preview.sh" run race.erl --root main \
      --property 'never:{a,"b c",_}' \
      --schedule @found "../a place/race.erl" none > "$room/out" 2> "$room/err"
  )
  [ $? = 3 ] && [ "$(cat "$room/out")" = input ]
  note "the preview hands on its input and its status" $?
  printf '%s\n' "$room/tree/crates/pulsefarm" try --data "given2/race.erl=$room/a place/race.erl" \
    --data "given8/found=$room/a place/found" \
    --data "given9/race.erl=$room/a place/race.erl" --seconds 600 -- run given2/race.erl --root main \
    --property 'never:{a,"b c",_}' \
    --schedule @given8/found given9/race.erl none > "$room/wanted"
  cmp -s "$FAKE/tried" "$room/wanted"
  note "the preview hands on words and files" $?
  [ "$(cat "$room/err")" \
    = 'this is pulsefarm unproved, built by rt try in some two minutes: it is for a first look, and sh install.sh proves it' ]
  note "the preview says that it is unproved" $?
}

# Each crate of the program is in the table, and each name in it is that of a crate.
table() {
  python3 -c \
    'import sys; sys.path.insert(0, sys.argv[1]); import order; print(*order.crates_of(sys.argv[2], ["pulsefarm"]), sep="\n")' "$top/install" "$top" | sort > "$room/sorted"
  sed -n 's/^\([a-z][a-z_]*\) [0-9][0-9]*$/\1/p' "$top/install/seconds.txt" | sort > "$room/table"
  comm -13 "$room/table" "$room/sorted" > "$room/out"
  sed -n 's/^\([a-z][a-z0-9_]*\).*:.*/\1/p' "$top/crates.txt" | sort | comm -23 "$room/table" - >> "$room/out"
  [ ! -s "$room/out" ] && [ "$(wc -l < "$room/sorted")" -gt 40 ]
  note "the table of seconds has each crate of the program, and crates alone" $?
}

lanes() {
  python3 "$top/tests/release/install/lanes.py" > "$room/out" 2> "$room/err"
  note "order of need, so many at once, the longest chain first" $?
}

# The tree itself, from what the gate has proved: the program is that of the gate, byte by byte.
real_install() {
  if ! python3 -c \
    'import os, sys; sys.path.insert(0, sys.argv[1]); import prove; sys.exit(not (prove.keeps() and os.path.exists(prove.store())))' "$top/install"; then
    echo "the kit kept nothing of what the gate proved, so the tree itself isn't installed"
    return
  fi
  cp "$top/crates/pulsefarm/out/pulsefarm" "$room/gate"
  PREFIX=$room/real timeout 300 sh "$top/install.sh" > "$room/out" 2> "$room/err"
  status=$?
  [ "$status" = 0 ] && [ "$(cat "$room/out")" = "$main_job" ] && ! grep -q ' proved; ' "$room/err"
  note "the tree is installed, from what the gate has proved" $?
  cmp -s "$room/real/bin/pulsefarm" "$room/gate"
  note "the program is that of the gate" $?
}

# The program unproved, while all else runs, in a folder for what is temporary that no other check clears.
preview() {
  cp "$top/examples/wrong_reply.erl" "$room/race.erl"
  mkdir -p "$room/preview_tmp"
  (cd "$room" && TMPDIR=$room/preview_tmp timeout 900 sh "$top/preview.sh" hunt race.erl --root main --limit 2000 \
    --property true --seeds 0..9 > "$room/preview" 2> "$room/preview_err"; echo $? > "$room/preview_status")
}

previewed() {
  wait
  "$program" hunt "$top/examples/wrong_reply.erl" --root main --limit 2000 --property true --seeds 0..9 > "$room/wanted"
  cp "$room/preview_err" "$room/err"
  cp "$room/preview" "$room/out"
  [ "$(cat "$room/preview_status")" = 1 ] && cmp -s "$room/preview" "$room/wanted" && head -n 1 "$room/err" |
    grep -q unproved
  note "the preview finds what the program does, and says that it is unproved" $?
}

mkdir -p "$TMPDIR"
if [ "$at_gate" = 1 ]; then
  preview &
fi
whole
side_by_side
forgetful
nameless
stopped INT
stopped TERM
told_to_stop
hung_up
fails
terminal
refusals
previews
table
lanes
if [ "$at_gate" = 1 ]; then
  real_install
  previewed
fi
tell_counts
