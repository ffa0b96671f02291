#!/bin/sh
# Runs `farm --replies DIR`, whose clients are answered while it runs: over pipes that stay open, beside clients that
# sleep, that don't read their replies or go away, and until it is ended by a signal. What each client is answered is
# compared with texts that follow from the rules (docs/LANGUAGE.md) and with what `steps` answers its lines alone.
#
# Usage: run.sh [BINARY]; the program is that of the crate `pulsefarm` where none is named.
set -u
top=$(cd "$(dirname "$0")/../../.." && pwd)
# shellcheck source=tests/compare.sh
. "$top/tests/compare.sh"
# shellcheck source=tests/farm/lines.sh
. "$top/tests/farm/lines.sh"
cd "$room" || exit 2

# Waits until the file $1 is what the file $2 is, but for no more than 20 seconds.
until_same() {
  for _ in $(seq 400); do
    cmp -s "$1" "$2" && return 0
    sleep 0.05
  done
  return 1
}

# An empty folder for replies.
fresh() {
  rm -rf r f1 f2
  mkdir r
}

# Whether the farm in the background ends with status $1 and nothing on standard output.
ends() {
  wait "$farm"
  ended=$?
  [ "$ended" = "$1" ] && [ ! -s out ]
  note "$2 (status $ended)" $?
}

write_module senders.erl main/0,s/2 \
  'main() -> S = self(), spawn(m, s, [S, a]), spawn(m, s, [S, b]), {take(), take(), take(), take()}.' \
  's(P, T) -> P ! {T, 1}, P ! {T, 2}.' 'take() -> receive M -> M end.'

# Each client is answered in its file what it is answered alone, and nothing is printed.
as_alone() {
  fresh
  names=''
  for p in 1 2 3 4; do
    begin "$p" senders.erl
    for t in $(seq 20); do printf 'order %s 1 main true seed:%s 2000\n' "$p" $((p * 1000 + t)); done >> "c$p"
    for t in $(seq 20); do printf 'await %s %s\nfetch %s %s\n' "$p" "$t" "$p" "$t"; done >> "c$p"
    names="$names c$p"
  done
  echo 'replies of another farm' > r/1
  # shellcheck disable=SC2086
  timeout 120 "$program" farm --workers 3 --replies r $names > out 2> err < /dev/null
  status=$?
  [ "$status" = 0 ] && [ ! -s out ] && [ ! -s err ] && [ "$(ls r | tr '\n' ' ')" = '1 2 3 4 ' ]
  note "four clients (status $status)" $?
  for p in 1 2 3 4; do
    alone "$p" > wanted
    cmp -s "r/$p" wanted
    note "the replies to client $p" $?
  done
}

# Replies come while both clients still have their pipes open, whichever of them sends.
two_pipes() {
  fresh
  mkfifo f1 f2
  timeout 120 "$program" farm --workers 2 --replies r f1 f2 > out 2> err < /dev/null &
  farm=$!
  exec 3> f1 4> f2
  printf 'log 1\n' >&3
  printf 'p1 log 0\n' > wanted
  until_same r/1 wanted && [ ! -s r/2 ]
  note 'a reply while nothing else is sent' $?
  printf 'log 2\nusage 2\n' >&4
  printf 'p2 log 0\np2 usage 0 0 0 0 1\n' > wanted
  until_same r/2 wanted
  note 'replies to the other client' $?
  printf 'log' >&3
  sleep 0.3
  printf 'p1 log 0\n' | cmp -s - r/1
  note 'half a line' $?
  printf ' 1\n' >&3
  printf 'p1 log 0\np1 log 1\n' > wanted
  until_same r/1 wanted
  note 'its other half' $?
  exec 3>&-
  printf 'log 2\n' >&4
  printf 'p2 log 0\np2 usage 0 0 0 0 1\np2 log 2\n' > wanted
  until_same r/2 wanted
  note 'a reply once the first client has gone' $?
  exec 4>&-
  ends 0 'two pipes'
}

# A client that sleeps delays no other, and of one that closes within a source this is reported, to it alone.
one_sleeps() {
  fresh
  mkfifo f1
  begin 2 senders.erl
  printf 'order 2 1 main true seed:1 2000\nawait 2 1\nfetch 2 1\n' >> c2
  alone 2 > wanted2
  timeout 120 "$program" farm --workers 2 --replies r f1 c2 > out 2> err < /dev/null &
  farm=$!
  exec 3> f1
  until_same r/2 wanted2 && [ ! -s r/1 ]
  note 'beside a client that sleeps' $?
  printf 'log 1\nsubmit 1 500\n-module(m).\n' >&3
  exec 3>&-
  ends 2 'a client that closes within a source'
  printf 'p1 log 0\ncommand 2 refused C1\n' | cmp -s - r/1
  note 'what it is answered' $?
  reason='the source of as many bytes, and a line end, don'"'"'t follow `submit`'
  printf 'pulsefarm: f1: command 2 is none: %s; those before it were answered, and nothing after it was read\n' \
    "$reason" | cmp -s - err
  note 'what is said of it' $?
}

# A client that doesn't read its replies delays no other. Its pipe holds 64 KiB.
one_is_full() {
  fresh
  mkfifo r/1
  awk 'BEGIN { for (i = 0; i < 9000; i++) print "usage 1" }' > c1
  awk 'BEGIN { for (i = 0; i < 1000; i++) print "log 2" }' > c2
  alone 1 > wanted1
  alone 2 > wanted2
  (exec 5< r/1; while [ ! -e go ]; do sleep 0.05; done; cat <&5 > got) &
  reader=$!
  timeout 120 "$program" farm --workers 1 --replies r c1 c2 > out 2> err < /dev/null &
  farm=$!
  until_same r/2 wanted2 && kill -0 "$farm"
  note 'beside a client that reads nothing' $?
  touch go
  ends 0 'a client that reads late'
  wait "$reader"
  cmp -s got wanted1
  note 'what it is answered in the end' $?
}

# What a hostile client sends makes no difference to the other: bytes without a line end, a line of garbage, a source
# that is longer than it says, many calls that are refused.
one_is_hostile() {
  begin 2 senders.erl
  printf 'order 2 1 main true seed:1 2000\nawait 2 1\nfetch 2 1\n' >> c2
  alone 2 > wanted2
  head -c 3000000 /dev/zero > zeros
  { printf 'log 1\n\377\376\200'; head -c 100000 /dev/zero; printf '\nlog 1\n'; } > garbage
  printf 'submit 1 3\nabcdefgh\nlog 1\n' > longer
  awk 'BEGIN { for (i = 0; i < 20000; i++) print "order 1 9 none none none 9" }' > refused
  for sent in zeros garbage longer refused; do
    fresh
    timeout 120 "$program" farm --workers 2 --replies r "$sent" c2 > out 2> err < /dev/null
    status=$?
    case $sent in
      zeros) wanted=2 answer='command 1 refused C1' ;;
      garbage) wanted=2 answer='command 2 refused C1' ;;
      longer) wanted=2 answer='command 1 refused C1' ;;
      refused) wanted=0 answer='p1 refused Q5' ;;
    esac
    [ "$status" = "$wanted" ] && [ ! -s out ] && cmp -s r/2 wanted2 && [ "$(tail -n 1 r/1)" = "$answer" ]
    note "beside a client that sends $sent (status $status)" $?
  done
}

# Replies that can't be written end their client's reading alone, with one line and status 2.
unwritten() {
  fresh
  awk 'BEGIN { for (i = 0; i < 1000; i++) print "log 2" }' > c2
  printf 'log 1\nlog 1\n' > c1
  ln -s /dev/full r/1
  timeout 120 "$program" farm --workers 1 --replies r c1 c2 > out 2> err < /dev/null
  status=$?
  alone 2 > wanted2
  [ "$status" = 2 ] && [ ! -s out ] && cmp -s r/2 wanted2
  note "replies that nothing takes (status $status)" $?
  [ "$(wc -l < err)" = 1 ] && grep -q "^pulsefarm: c1: its replies can't be written: " err
  note 'what is said of them' $?
  rm r/1
  mkfifo r/1
  awk 'BEGIN { for (i = 0; i < 9000; i++) print "usage 1" }' > c1
  head -n 1 < r/1 > got &
  timeout 120 "$program" farm --workers 1 --replies r c1 c2 > out 2> err < /dev/null
  status=$?
  [ "$status" = 2 ] && [ ! -s out ] && cmp -s r/2 wanted2 && [ "$(wc -l < err)" = 1 ] \
    && grep -q "^pulsefarm: c1: its replies can't be written: " err
  note "a client that goes away (status $status)" $?
  wait
}

# A FIFO whose other end nobody opens makes its own client wait, and no other: that of its lines or of its replies.
one_is_unopened() {
  fresh
  mkfifo f1 r/2
  printf 'log 2\n' > c2
  begin 3 senders.erl
  printf 'order 3 1 main true seed:1 2000\nawait 3 1\nfetch 3 1\n' >> c3
  alone 3 > wanted3
  timeout 120 "$program" farm --workers 2 --replies r f1 c2 c3 > out 2> err < /dev/null &
  farm=$!
  until_same r/3 wanted3 && [ -f r/1 ] && [ ! -s r/1 ] && kill -0 "$farm"
  note 'beside FIFOs that nobody opens' $?
  cat r/2 > got &
  printf 'p2 log 0\n' > wanted
  until_same got wanted && [ ! -s r/1 ] && kill -0 "$farm"
  note 'replies that somebody reads late' $?
  printf 'log 1\n' > f1
  ends 0 'lines that somebody sends late'
  printf 'p1 log 0\n' | cmp -s - r/1
  note 'what they are answered' $?
}

# A client one of whose files can't be opened is reported, with status 2, and the others are answered.
nowhere() {
  fresh
  printf 'log 1\n' > c1
  printf 'log 2\n' > c2
  for folder in nosuch c1; do
    timeout 20 "$program" farm --workers 1 --replies "$folder" c1 > out 2> err < /dev/null
    status=$?
    [ "$status" = 2 ] && [ ! -s out ] && [ "$(wc -l < err)" = 1 ] \
      && grep -q "^pulsefarm: c1: its replies can't be written: " err
    note "the folder '$folder' (status $status)" $?
  done
  mkdir r/1
  timeout 20 "$program" farm --workers 1 --replies r c1 c2 > out 2> err < /dev/null
  status=$?
  [ "$status" = 2 ] && [ ! -s out ] && [ "$(cat r/2)" = 'p2 log 0' ] && [ "$(wc -l < err)" = 1 ] \
    && grep -q "^pulsefarm: c1: its replies can't be written: " err
  note "a folder in the place of a file (status $status)" $?
  fresh
  timeout 20 "$program" farm --workers 1 --replies r nosuch c2 > out 2> err < /dev/null
  status=$?
  [ "$status" = 2 ] && [ ! -s out ] && [ ! -s r/1 ] && [ "$(cat r/2)" = 'p2 log 0' ] && [ "$(wc -l < err)" = 1 ] \
    && grep -q '^pulsefarm: nosuch: ' err
  note "a file that is none (status $status)" $?
  timeout 20 "$program" farm --workers 1 --replies r - - > out 2> err < c1
  status=$?
  [ "$status" = 2 ] && [ ! -s out ] \
    && [ "$(cat err)" = 'pulsefarm: the standard input can be the file of one client only' ]
  note "the standard input twice (status $status)" $?
  timeout 20 "$program" farm --workers 1 --replies r - > out 2> err < c1
  status=$?
  [ "$status" = 0 ] && [ ! -s out ] && [ ! -s err ] && [ "$(cat r/1)" = 'p1 log 0' ]
  note "the standard input (status $status)" $?
}

# Whether each reply in the file $1, which is a beginning of the file $2, is whole. Only the last may be cut short, and
# only where a page of its file ends: there the system ends the write of a program that a signal ends.
are_whole() {
  size=$(wc -c < "$1")
  head -c "$size" "$2" | cmp -s - "$1" || return 1
  [ $((size % page)) = 0 ] && return 0
  awk '/^p[0-9]+ report / { if (left) bad = 1; left = $3; next }
    left { left--; next }
    /^p[0-9]+ / { next }
    { bad = 1 }
    END { exit bad || left > 0 }' "$1" && [ "$(tail -c 1 "$1" | od -An -c | tr -d ' ')" = '\n' ]
}

# A farm that is ended by a signal: what was answered is in the files, each reply whole.
is_ended() {
  page=$(getconf PAGESIZE)
  names=''
  for p in 1 2; do
    begin "$p" senders.erl
    for t in $(seq 2000); do
      printf 'order %s 1 main true seed:%s 2000\nawait %s %s\nfetch %s %s\ndrop %s %s\n' \
        "$p" "$t" "$p" "$t" "$p" "$t" "$p" "$t"
    done >> "c$p"
    names="$names c$p"
    alone "$p" > "wanted$p"
  done
  early=0
  for moment in $(seq 20); do
    fresh
    enough=$(($(wc -c < wanted1) * moment / 25))
    # shellcheck disable=SC2086
    "$program" farm --workers 2 --replies r $names > out 2> err < /dev/null &
    farm=$!
    until [ -s r/1 ] && [ "$(wc -c < r/1)" -ge "$enough" ]; do :; done
    kill -TERM "$farm" 2> /dev/null
    wait "$farm" 2> /dev/null
    whole=0
    for p in 1 2; do
      are_whole "r/$p" "wanted$p" || whole=1
    done
    note "ended at moment $moment" "$whole"
    [ "$(wc -c < r/1)" -lt "$(wc -c < wanted1)" ] && early=$((early + 1))
  done
  [ "$early" -ge 10 ]
  note "$early of 20 were ended early" $?
}

as_alone
two_pipes
one_sleeps
one_is_full
one_is_unopened
one_is_hostile
unwritten
nowhere
is_ended
tell_counts
