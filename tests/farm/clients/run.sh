#!/bin/sh
# Runs `farm`, whose clients and workers are threads, and compares what each client is answered: with texts that follow
# from the rules (docs/LANGUAGE.md), and with what `steps` answers the same project alone. A worker of `steps` claims,
# slices and files there where the client of the farm awaits its trial.
#
# Usage: run.sh [BINARY]; the program is that of the crate `pulsefarm` where none is named.
set -u
top=$(cd "$(dirname "$0")/../../.." && pwd)
# shellcheck source=tests/compare.sh
. "$top/tests/compare.sh"
# shellcheck source=tests/farm/lines.sh
. "$top/tests/farm/lines.sh"
cd "$room" || exit 2

# Runs a farm of $2 workers over the files from $3 on, and counts whether it writes what is in `wanted` with status $1.
farm() {
  wanted_status=$1 workers=$2
  shift 2
  timeout 120 "$program" farm --workers "$workers" "$@" > out 2> err < /dev/null
  status=$?
  [ "$status" = "$wanted_status" ] && cmp -s out wanted
  note "farm of $workers over $* (status $status)" $?
}

write_module one.erl main/0 'main() -> 1 + 2 * 3.'
write_module loop.erl main/0 'main() -> main().'
write_module senders.erl main/0,s/2 \
  'main() -> S = self(), spawn(m, s, [S, a]), spawn(m, s, [S, b]), {take(), take(), take(), take()}.' \
  's(P, T) -> P ! {T, 1}, P ! {T, 2}.' 'take() -> receive M -> M end.'
write_module spawning.erl main/0,kid/0 'main() -> loop().' 'loop() -> spawn(m, kid, []), loop().' \
  'kid() -> receive go -> ok end.'

two_files() {
  for p in 1 2; do
    begin $p one.erl
    printf 'order %s 1 main returns none 100\nawait %s 1\nfetch %s 1\n' $p $p $p >> c$p
  done
  for p in 1 2; do
    printf 'p%s module 1\np%s ticket 1\np%s report 4\n' $p $p $p
    printf '%s\n' '0/1 <0> end normal' 'finished 7' 'steps 4' 'property holds'
  done > wanted
  for workers in 1 2 3 64; do farm 0 $workers c1 c2; done
  head -n 7 wanted > wanted1
  mv wanted1 wanted
  farm 0 2 c1
}

# Counts whether standard error says that command $2 of the file c1 is none, since $1, and no more.
is_reported() {
  printf 'pulsefarm: c1: command %s is none: %s; those before it were answered, and nothing after it was read\n' \
    "$2" "$1" | cmp -s - err
  note "what is said: $1" $?
}

# Counts whether a farm says that the line $1 of project 1 is none, since $2.
reason() {
  printf 'log 1\n%s\nlog 1\n' "$1" > c1
  printf 'p1 log 0\ncommand 2 refused C1\n' > wanted
  farm 2 1 c1
  is_reported "$2" 2
}

# What is said of a line that is no command.
reasons() {
  number='a number from 0 to 4294967295 without leading zeros'
  reason 'claim 0 1 1' '`claim` is a line of workers, and not of clients'
  reason 'await 2 1' '`2` is another project: the lines of this file are those of project 1'
  reason 'submit 2 3' '`2` is another project: the lines of this file are those of project 1'
  reason 'await 1' '`T` is missing: `await` wants `P T` after it'
  reason 'await 1 1 1' 'it has too many words: `await` wants `P T` after it'
  reason 'await 1 01' "\`01\` is no \`T\` of \`await\`: it wants $number"
  reason 'fetch x 1' "\`x\` is no \`P\` of \`fetch\`: it wants $number"
  reason 'AWAIT 1 1' 'no command begins with `AWAIT`'
  reason '' 'the line is empty'
  reason 'submit 1 500' 'the source of as many bytes, and a line end, don'"'"'t follow `submit`'
}

# Two files with a line that is none are both reported, by name.
both_are_reported() {
  printf 'log 1\nnone\n' > c1
  printf 'none\nlog 2\n' > c2
  printf 'p1 log 0\ncommand 2 refused C1\ncommand 1 refused C1\n' > wanted
  farm 2 2 c1 c2
  rest='no command begins with `none`; those before it were answered, and nothing after it was read'
  printf 'pulsefarm: c1: command 2 is none: %s\npulsefarm: c2: command 1 is none: %s\n' "$rest" "$rest" > wanted
  sort err | cmp -s - wanted
  note 'two files with a line that is none' $?
}

# A line that is no command ends its file, and that file alone.
lines_that_are_none() {
  begin 1 one.erl
  printf 'usage 2\nusage 1\n' >> c1
  begin 2 one.erl
  printf 'log 2\n' >> c2
  printf 'p1 module 1\ncommand 2 refused C1\np2 module 1\np2 log 1\n' > wanted
  farm 2 2 c1 c2
  is_reported '`2` is another project: the lines of this file are those of project 1' 2
  for line in 'claim 0 1 1' 'slice 0 1 1 5' 'park 0 1 1' 'await 2 1' 'await 1' 'await 1 1 1' 'await  1 1' 'await 1 01' \
    'await 1 -1' 'await 1 4294967296' \
    'once 1 1' 'AWAIT 1 1' 'await' '' 'fetch 2 1' 'submit 2 3' 'submit 1 500'; do
    printf 'await 1 7\nlog 1\n%s\nlog 1\n' "$line" > c1
    printf 'p1 log 0\ncommand 3 refused C1\n' > wanted
    farm 2 1 c1
  done
  printf 'await 2 1\n' > c1
  printf 'command 1 refused C1\n' > wanted
  farm 2 2 c1
  printf 'await 1 1\n' | timeout 20 "$program" steps > out 2> err
  [ $? = 2 ] && [ "$(cat out)" = 'command 1 refused C1' ]
  note 'await is no line of steps' $?
}

# A trial that isn't held isn't waited for: one that was never ordered, one that was dropped, one of a refused order.
nothing_to_wait_for() {
  begin 1 loop.erl
  {
    printf 'await 1 1\norder 1 1 nosuch returns none 100\nawait 1 1\norder 1 1 main returns none 100000\ndrop 1 1\nawait 1 1\nfetch 1 1\n'
    printf 'order 1 1 main true seed:5 100\nawait 1 2\nstatus 1 2\nfetch 1 2\nwithdraw 1 1\ndrop 1 2\nwithdraw 1 1\nusage 1\nlog 1'
  } >> c1
  printf 'p1 module 1\np1 refused B2\np1 ticket 1\np1 done\np1 refused B3\np1 ticket 2\np1 done\np1 report 4\n0/1 <0> cut\nlimit\nsteps 100\nproperty fails\np1 refused B4\np1 done\np1 done\np1 usage 0 0 0 0 11\np1 log 12\n' > wanted
  farm 0 2 c1
}

# Files that hold nothing, can't be opened, or are the standard input.
files() {
  : > empty
  : > wanted
  farm 0 3 empty empty
  timeout 20 "$program" farm --workers 1 nosuch empty > out 2> err
  [ $? = 2 ] && [ ! -s out ] && grep -q '^pulsefarm: nosuch: ' err
  note 'a file that is none' $?
  printf 'log 2\n' | timeout 20 "$program" farm --workers 1 empty - > out 2> err && [ "$(cat out)" = 'p2 log 0' ]
  note 'the standard input' $?
  timeout 20 "$program" farm --workers 1 - - > out 2> err < empty
  [ $? = 2 ] && [ ! -s out ] && [ "$(cat err)" = 'pulsefarm: the standard input can be the file of one client only' ]
  note 'the standard input twice' $?
  timeout 20 "$program" farm --workers 1 . > out 2> err
  [ $? = 2 ] && [ ! -s out ] && [ "$(wc -l < err)" = 1 ] && grep -q '^pulsefarm: .: ' err
  note 'a folder' $?
  begin 1 one.erl
  timeout 20 "$program" farm --workers 1 c1 > /dev/full 2> err
  [ $? = 2 ] && [ -s err ]
  note 'an output that takes nothing' $?
}

# $1 clients, each with $2 trials of two senders by seeds, on 4 workers: each is answered what it is answered alone.
many_trials() {
  names=''
  : > wanted
  for p in $(seq "$1"); do
    begin "$p" senders.erl
    for t in $(seq "$2"); do printf 'order %s 1 main true seed:%s 2000\n' "$p" $((p * 1000 + t)); done >> "c$p"
    for t in $(seq "$2"); do printf 'await %s %s\nfetch %s %s\n' "$p" "$t" "$p" "$t"; done >> "c$p"
    alone "$p" >> wanted
    names="$names c$p"
  done
  # shellcheck disable=SC2086
  farm 0 4 $names
}

# 64 clients with 1,000 lines each, on 64 workers.
many_lines() {
  names=''
  : > wanted
  for p in $(seq 64); do
    begin "$p" senders.erl
    awk -v p="$p" 'BEGIN {
      for (t = 1; t <= 199; t++) {
        print "order " p " 1 main true seed:" (p * 1000 + t) " 2000"
        print "await " p " " t; print "fetch " p " " t; print "drop " p " " t; print "usage " p
      }
      print "log " p; print "withdraw " p " 1"; print "status " p " 200"; print "fetch " p " 1"
    }' >> "c$p"
    alone "$p" >> wanted
    names="$names c$p"
  done
  for _ in $(seq "$1"); do
    # shellcheck disable=SC2086
    farm 0 64 $names
  done
}

# Runs of more than a slice are parked, and go on: each ends as it does alone. What the workers did is reported at the
# end: each run has two slices, so it is parked once, and one worker has nobody to steal from.
parked_runs() {
  names=''
  : > wanted
  for p in 1 2 3; do
    begin "$p" spawning.erl
    for t in $(seq 8); do printf 'order %s 1 main true seed:%s 2000\n' "$p" "$t"; done >> "c$p"
    for t in $(seq 8); do printf 'await %s %s\nfetch %s %s\n' "$p" "$t" "$p" "$t"; done >> "c$p"
    alone "$p" >> wanted
    names="$names c$p"
  done
  for workers in 1 2 4; do
    # shellcheck disable=SC2086
    farm 0 "$workers" $names --summary
    awk -v workers="$workers" '
      /^pulsefarm: worker [0-9]+: [0-9]+ claims, [0-9]+ steals, [0-9]+ parks, [0-9]+ hand-backs$/ { lines++; claims += $4; steals += $6; parks += $8; backs += $10; next }
      /^pulsefarm: [0-9]+\.[0-9][0-9][0-9] s$/ { seconds++; next }
      { other++ }
      END {
        shared = workers == 1 ? steals == 0 : steals <= parks
        exit !(lines == workers && claims == 24 && parks == 24 && shared && backs == 0 && seconds == 1 && other == 0)
      }' err
    note "the summary of $workers" $?
  done
}

# How far the trials are is shown on standard error where that is a terminal, in one line that is written over, and
# makes no difference to the output.
on_a_terminal() {
  begin 1 spawning.erl
  awk 'BEGIN { for (t = 1; t <= 3000; t++) print "order 1 1 main true seed:" t " 2000\nawait 1 " t "\ndrop 1 " t }' \
    >> c1
  : > c2
  alone 1 > wanted
  script -qec "timeout 60 '$program' farm --workers 2 c1 c2 > out" /dev/null < /dev/null > err
  status=$?
  [ $status = 0 ] && cmp -s out wanted && tr '\r' '\n' < err | sed 's/\x1b\[K//' | awk '
    /^trials done of ordered: p1 [0-9]+\/[0-9]+ p2 0\/0$/ { split($6, n, "/"); if (n[1] > n[2] || n[2] > 3000) bad = 1; lines++; next }
    /^$/ { next }
    { bad = 1 }
    END { exit bad || !lines }'
  note "a terminal (status $status)" $?
}

two_files
on_a_terminal
lines_that_are_none
reasons
both_are_reported
nothing_to_wait_for
files
many_trials 4 50
parked_runs
many_lines 10
tell_counts
