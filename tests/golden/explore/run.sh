#!/bin/sh
# Explorations: of modules whose schedules are counted by hand, of a race that a seed meets and of one that a deviation
# meets, within budgets and times that are too small, of what is refused, and of the fixed forms of examples/ that have
# few schedules.
#
# Usage: run.sh [BINARY]; the program is that of the crate `pulsefarm` where none is named.
set -u
top=$(cd "$(dirname "$0")/../../.." && pwd)
# shellcheck source=tests/compare.sh
. "$top/tests/compare.sh"

# Compares what an exploration of the module $3 with the words from $4 on prints with the standard input; $1 names it,
# and $2 is the status that is wanted.
explored() {
  named=$1 ended=$2 module=$3
  shift 3
  cat > "$room/wanted"
  compare "$named" "$ended" /dev/null "$room/wanted" explore "$room/$module.erl" "$@"
}

# The root starts two processes, which end. After the first start these are left, in any order in which the second start
# comes before the end of the root and before that of the second process: 4! / 3 = 8. The root makes two steps (its
# call, the start), two (the next expression, the start) and two (the value, its end), and each process two (its call,
# its end).
idle() {
  write_module "$room/idle.erl" 'main/0, idle/0' \
    'main() -> spawn(?MODULE, idle, []), spawn(?MODULE, idle, []), true.' 'idle() -> ok.'
  explored 'two idle processes' 0 idle --property true << 'END'
no schedule fails: 8 runs; a run has at most 10 steps
END
  explored 'the same in JSON' 0 idle --property true --format json << 'END'
{"failure":false,"runs":8,"steps":10}
END
}

# The root starts a process, which sends to it, and receives. After the start there are the send S, the end E of the
# sender after it, the delivery D after S, and then the receive T and the end F of the root. Where the root receives
# before D it waits, W, and receives again after D.
#   without W: S, and then E in one of 4 places among D T F: 4
#   W S, and then E in one of 4 places among D T F: 4
#   S, and then E in one of 5 places among W D T F: 5
# The longest has W: 4 steps for the start (the call, self(), the list, the start), 2 for W (the next expression, the
# wait), 2 for S (the call, the send), and 1 each for E, D, T and F. Within 11 steps a run with W is at its limit.
# The run without deviations is: start, W, S, E, D, T, F. It can be left by one deviation where S may come before W, and
# where D may come before E.
sender() {
  write_module "$room/sender.erl" 'main/0, send/1' \
    'main() -> spawn(?MODULE, send, [self()]), receive a -> true end.' 'send(Main) -> Main ! a.'
  explored 'a sender' 0 sender --property true << 'END'
no schedule fails: 13 runs; a run has at most 12 steps
END
  explored 'within 12 steps' 0 sender --limit 12 << 'END'
no schedule fails: 13 runs; a run has at most 12 steps
END
  explored 'budget 1' 3 sender --budget 1 << 'END'
not all seen: 1 runs (budget); no schedule with at most 0 deviations fails
END
  explored 'budget 3' 3 sender --budget 3 << 'END'
not all seen: 3 runs (budget); no schedule with at most 0 deviations fails
END
  explored 'budget 4' 3 sender --budget 4 << 'END'
not all seen: 4 runs (budget); no schedule with at most 1 deviations fails
END
  explored 'no deviations' 3 sender --deviations 0 << 'END'
not all seen: 1 runs; no schedule with at most 0 deviations fails
END
  explored 'one deviation' 3 sender --deviations 1 << 'END'
not all seen: 4 runs; no schedule with at most 1 deviations fails
END
  explored 'one deviation in JSON' 3 sender --deviations 1 --format json << 'END'
{"unseen":true,"runs":4,"deviations":1}
END
  explored 'budget 4 in JSON' 3 sender --budget 4 --format json << 'END'
{"budget":true,"unseen":true,"runs":4,"deviations":1}
END
}

# Two processes send, and the root takes the message that comes first for that of the first: a seed finds that. The
# schedule that is printed runs so again, and with `--shrink` comes before what `shrink` says of it.
race() {
  write_module "$room/race.erl" 'main/0, first/1, second/1' \
    'main() ->' \
    '    spawn(?MODULE, first, [self()]), spawn(?MODULE, second, [self()]),' \
    '    receive M -> M == first end.' \
    'first(Main) -> Main ! first.' 'second(Main) -> Main ! second.'
  found race
  "$program" hunt "$room/race.erl" --property true | grep '^schedule ' > "$room/by_hunt"
  head -n 1 "$room/found" | diff "$room/by_hunt" - > "$room/err"
  note 'the race: its schedule is that of the least seed' $?
  {
    head -n 1 "$room/found"
    "$program" shrink "$room/race.erl" --root main --limit 100000 --property true --schedule "@$room/found" --runs 300
  } > "$room/wanted"
  compare 'the race shrunk' 1 /dev/null "$room/wanted" explore "$room/race.erl" --property true --shrink 300
}

# Twelve processes send their numbers, and the root is deceived by one order alone: the sixth comes after the seventh.
# The run without deviations takes them in order; one deviation, at the delivery of the sixth, meets the other order. Of
# 12! orders it is one, and no seed of the first 2,000 meets it.
late() {
  write_module "$room/late.erl" 'main/0, send/2' \
    'main() ->' \
    '    M = self(),' \
    '    spawn(?MODULE, send, [M, 1]), spawn(?MODULE, send, [M, 2]), spawn(?MODULE, send, [M, 3]),' \
    '    spawn(?MODULE, send, [M, 4]), spawn(?MODULE, send, [M, 5]), spawn(?MODULE, send, [M, 6]),' \
    '    spawn(?MODULE, send, [M, 7]), spawn(?MODULE, send, [M, 8]), spawn(?MODULE, send, [M, 9]),' \
    '    spawn(?MODULE, send, [M, 10]), spawn(?MODULE, send, [M, 11]), spawn(?MODULE, send, [M, 12]),' \
    '    take(12, []) =/= [12, 11, 10, 9, 8, 6, 7, 5, 4, 3, 2, 1].' \
    'take(0, Numbers) -> Numbers;' \
    'take(N, Numbers) -> receive Number -> take(N - 1, [Number | Numbers]) end.' \
    'send(Main, Number) -> Main ! Number.'
  explored 'late without deviations' 3 late --property true --deviations 0 << 'END'
not all seen: 1 runs; no schedule with at most 0 deviations fails
END
  found late --deviations 1
}

# Finds a schedule of the module $1 by which `true` fails, with the words from $2 on; it runs so again.
found() {
  module=$1
  shift
  timeout 120 "$program" explore "$room/$module.erl" --property true "$@" > "$room/found" 2> "$room/err"
  status=$?
  tail -n +2 "$room/found" > "$room/report"
  [ "$status" = 1 ] && [ "$(tail -n 1 "$room/found")" = 'property fails' ]
  note "$module: status $status for 1" $?
  compare "$module: its schedule" 1 /dev/null "$room/report" run "$room/$module.erl" --root main --limit 100000 \
    --property true --schedule "@$room/found"
}

# An exploration for a time ends with what it knows, and not before the run without deviations.
timed() {
  timeout 120 "$program" explore "$room/late.erl" --for 1s > "$room/found" 2> "$room/err"
  status=$?
  [ "$status" = 3 ] && grep -qx 'not all seen: [1-9][0-9]* runs (time); no schedule with at most [0-9]* deviations fails' \
    "$room/found"
  note "for a second: status $status for 3, $(cat "$room/found")" $?
  explored 'small for an hour' 0 sender --for 1h << 'END'
no schedule fails: 13 runs; a run has at most 12 steps
END
}

# Where a process goes last. Of the idle two <1> ends after all: the root's end and that of <2> go before it in either
# order. Of the sender:
#   <0> last: it waits for nobody, since S, E and D go before its receive; E and D in either order. T is 2 steps then
#   (the next expression, the receive)
#   <1> last: the root waits, W, before S, and then D, T and F go before E
# Of the race <2> sends after all others are done: the root starts it, R, and takes the message of <1> after its
# delivery D, T, and ends, F; <1> sends, S, and ends, E. After that <2> sends, the delivery comes, and it ends.
#   without W: S D T F with R before T, in one of 3 places, and then E in one of the places after S: 4 + 5 + 5
#   R W D T F with S before D, in one of 3 places, and then E in one of the places after S: 6 + 5 + 4
# Where <1> sends last, the root takes the other message by each schedule.
last() {
  explored 'idle, <1> last' 0 idle --property true --last 1 << 'END'
no schedule fails: 2 runs; a run has at most 10 steps
END
  explored 'a sender, the root last' 0 sender --property true --last '<0>' << 'END'
no schedule fails: 2 runs; a run has at most 11 steps
END
  explored 'a sender, <1> last' 0 sender --property true --last 1 << 'END'
no schedule fails: 1 runs; a run has at most 12 steps
END
  explored 'a sender, nobody last' 0 sender --property true --last 2 << 'END'
no schedule fails: 13 runs; a run has at most 12 steps
END
  explored 'the race, <2> last' 0 race --property true --last 2 << 'END'
no schedule fails: 29 runs; a run has at most 21 steps
END
  explored 'the race, <2> last, without deviations' 3 race --property true --last 2 --deviations 0 << 'END'
not all seen: 1 runs; no schedule with at most 0 deviations fails
END
  found race --last 1
}

# What is refused, as it is by `hunt`.
refusals() {
  explored 'no such root' 2 race --root nothing << 'END'
B2
END
  explored 'no property' 2 race --property nothing << 'END'
P1
END
  explored 'no limit' 2 race --limit 0 << 'END'
B6
END
  explored 'no process' 2 race --last x < /dev/null
  echo 'main() -> true.' > "$room/headless.erl"
  timeout 120 "$program" hunt "$room/headless.erl" > "$room/refused" 2> "$room/err" < /dev/null
  explored 'no head' 2 headless < "$room/refused"
}

# Each fixed form of examples/ that has few schedules fails by none; a search over configurations, which shares nothing
# with this one, counted as many schedules and as many steps.
fixed() {
  while read -r module property runs steps; do
    echo "no schedule fails: $runs runs; a run has at most $steps steps" > "$room/wanted"
    compare "$module" 0 /dev/null "$room/wanted" explore "$top/examples/$module.erl" --property "$property"
  done << 'END'
unexpected_messages_mended true 60 33
END
}

idle
sender
race
late
last
timed
refusals
fixed
tell_counts
