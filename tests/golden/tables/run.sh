#!/bin/sh
# Runs a program for each row of the tables of contractions, actions and deliveries (docs/LANGUAGE.md), with all the
# memory that there is. Each ends as its row says, with the labels that the row has, and none says that memory ran out.
# (The limits are in tests/faults/limits, at their numbers.)
#
# Usage: run.sh [BINARY]; the program is that of the crate `pulsefarm` where none is named.
set -u
top=$(cd "$(dirname "$0")/../../.." && pwd)
# shellcheck source=tests/compare.sh
. "$top/tests/compare.sh"

# Runs the functions $2 from `main`, all of which are exported that take nothing or one argument; the outcome has to be
# $3, and each further word the end of some line of the report. $1 names the row.
row() {
  name=$1 outcome=$3
  { echo '-module(m).'; echo "-export([main/0, g/0, h/1])."; printf '%s\n' "$2"
    case $2 in *'g() ->'*) ;; *) echo 'g() -> ok.' ;; esac
    case $2 in *'h('*') ->'*) ;; *) echo 'h(X) -> X.' ;; esac; } > "$room/in"
  shift 3
  "$program" run --root main --limit 5000 --schedule none < "$room/in" > "$room/out" 2> "$room/err"
  status=$?
  case $outcome in finished*) wanted=0 ;; *) wanted=1 ;; esac
  good=0
  [ "$status" = "$wanted" ] || good=1
  grep -qxF -- "$outcome" "$room/out" || good=1
  ! grep -qxE 'memory|NoMemory|no verdict' "$room/out" || good=1
  for label; do
    sed -n 's,^[0-9]*/[0-9]* ,,p' "$room/out" | grep -qxF -- "$label" || { good=1; echo "no line: $label"; }
  done
  note "$name" "$good"
}

contractions() {
  row 'a call, the first clause that fits' 'main() -> f(2). f(1) -> one; f(2) -> two; f(_) -> other.' 'finished two'
  row 'a call, a guard that fails' 'main() -> f(2). f(X) when X > 2 -> more; f(_) -> other.' 'finished other'
  row 'a call that no clause fits' 'main() -> f(2). f(1) -> one.' 'ended {function_clause,[]}' \
    '<0> end {function_clause,[]}'
  row 'a value before a comma' 'main() -> 1, 2.' 'finished 2'
  row 'a match' 'main() -> {X, _} = {1, 2}, X.' 'finished 1'
  row 'a match that does not fit' 'main() -> {1, 2} = {1, 3}.' 'ended {{badmatch,{1,3}},[]}'
  row 'a case' 'main() -> case 3 of 1 -> a; X when X > 2 -> {b, X} end.' 'finished {b,3}'
  row 'a case of which no clause fits' 'main() -> case 3 of 1 -> a end.' 'ended {{case_clause,3},[]}'
  row 'an if' 'main() -> if 1 > 2 -> a; true -> b end.' 'finished b'
  row 'an if of which no guard holds' 'main() -> if 1 > 2 -> a end.' 'ended {if_clause,[]}'
  row 'a tuple' 'main() -> {1, {}, [a]}.' 'finished {1,{},[a]}'
  row 'a cons' 'main() -> [1, 2 | [3]].' 'finished [1,2,3]'
  row 'a cons onto no list' 'main() -> [1 | 2].' 'ended {badarg,[]}'
  row 'a tuple that is too deep' 'main() -> f(0). f(X) -> f({X, X}).' 'ended {system_limit,[]}'
  row 'sum, difference, product' 'main() -> 2 + 3 * 4 - 5.' 'finished 9'
  row 'unary minus' 'main() -> X = 7, - X.' 'finished -7'
  row 'a sum of no integer' 'main() -> 1 + a.' 'ended {badarith,[]}'
  row 'minus of no integer' 'main() -> X = a, - X.' 'ended {badarith,[]}'
  row 'a sum past 64 bits' 'main() -> 9223372036854775807 + 1.' 'ended {system_limit,[]}'
  row 'a quotient' 'main() -> {-7 div 2, -7 rem 2, 7 rem -2}.' 'finished {-3,-1,1}'
  row 'a quotient by zero' 'main() -> 7 div 0.' 'ended {badarith,[]}'
  row 'a rest by no integer' 'main() -> 7 rem a.' 'ended {badarith,[]}'
  row 'a quotient past 64 bits' 'main() -> (0 - 9223372036854775807 - 1) div -1.' 'ended {system_limit,[]}'
  row 'two lists as one' 'main() -> [1] ++ [2, 3].' 'finished [1,2,3]'
  row 'a list and no list' 'main() -> [1] ++ 2.' 'ended {badarg,[]}'
  row 'comparisons' 'main() -> {1 < 2, a >= b, 1 == 1, 1 =/= 1, 1 =:= 2, 1 /= 2, 2 =< 1, 2 > 1}.' \
    'finished {true,false,true,false,false,true,false,true}'
  row 'andalso, orelse' 'main() -> {true andalso 5, false andalso 5, true orelse 5, false orelse 5}.' \
    'finished {5,false,true,5}'
  row 'andalso of no truth value' 'main() -> 1 andalso true.' 'ended {{badarg,1},[]}'
  row 'self' 'main() -> self().' 'finished <0>'
  row 'hd, tl, length, element, tuple_size' \
    'main() -> {hd([1, 2]), tl([1, 2]), length([1, 2]), element(2, {a, b}), tuple_size({a, b})}.' \
    'finished {1,[2],2,b,2}'
  row 'hd of nothing' 'main() -> hd([]).' 'ended {badarg,[]}'
  row 'an element that is not there' 'main() -> element(3, {a, b}).' 'ended {badarg,[]}'
  row 'tests' 'main() -> {is_integer(1), is_atom(a), is_tuple({}), is_list([]), is_pid(self()), is_reference(1)}.' \
    'finished {true,true,true,true,true,false}'
  row 'exit' 'main() -> exit(gone).' 'ended gone' '<0> end gone'
}

actions() {
  row 'a message to a process' 'main() -> self() ! hi, receive X -> X end.' 'finished hi' '<0> send <0> hi' \
    '<0> receive hi'
  row 'a message to a name' 'main() -> register(n, self()), n ! hi, receive X -> X end.' 'finished hi' \
    '<0> register n <0>' '<0> send <0> hi'
  row 'a message to nobody' 'main() -> nobody ! hi.' 'ended {badarg,[]}' '<0> raise badarg'
  row 'spawn' 'main() -> spawn(m, g, []).' 'finished <1>' '<0> spawn <1>' '<1> end normal'
  row 'spawn of what is not exported' 'main() -> spawn(m, f, []). f() -> ok.' 'finished <1>' '<1> end {undef,[]}'
  row 'spawn of no function' 'main() -> spawn(1, g, []).' 'ended {badarg,[]}' '<0> raise badarg'
  row 'spawn past the last process' 'main() -> f(300). f(0) -> ok; f(N) -> spawn(m, g, []), f(N - 1).' \
    'ended {system_limit,[]}' '<0> raise system_limit'
  row 'spawn_link' 'main() -> spawn_link(m, g, []).' 'finished <1>' '<0> spawn_link <1>'
  row 'link' 'main() -> P = spawn(m, h, [1]), link(P).' 'finished true' '<0> link <1>' '<0>-><1> deliver link noproc'
  row 'link to no process' 'main() -> link(a).' 'ended {badarg,[]}' '<0> raise badarg'
  row 'make_ref' 'main() -> make_ref().' 'finished #Ref<0>' '<0> make_ref #Ref<0>'
  row 'monitor' 'main() -> monitor(process, spawn(m, g, [])).' 'finished #Ref<0>' '<0> monitor #Ref<0> <1>'
  row 'monitor of another kind' 'main() -> monitor(port, self()).' 'ended {badarg,[]}' '<0> raise badarg'
  row 'demonitor' 'main() -> R = monitor(process, spawn(m, g, [])), demonitor(R).' 'finished true' \
    '<0> demonitor #Ref<0>'
  row 'demonitor of no reference' 'main() -> demonitor(1).' 'ended {badarg,[]}' '<0> raise badarg'
  row 'exit of another' 'main() -> exit(spawn(m, g, []), gone).' 'finished true' '<0> exit <1> gone'
  row 'exit of no process' 'main() -> exit(a, gone).' 'ended {badarg,[]}' '<0> raise badarg'
  row 'process_flag' 'main() -> {process_flag(trap_exit, true), process_flag(trap_exit, false)}.' \
    'finished {false,true}' '<0> process_flag true' '<0> process_flag false'
  row 'another flag' 'main() -> process_flag(priority, true).' 'ended {badarg,[]}' '<0> raise badarg'
  row 'register twice' 'main() -> register(n, self()), register(n, self()).' 'ended {badarg,[]}' '<0> raise badarg'
  row 'unregister' 'main() -> register(n, self()), unregister(n).' 'finished true' '<0> unregister n'
  row 'unregister of no name' 'main() -> unregister(n).' 'ended {badarg,[]}' '<0> raise badarg'
  row 'whereis' 'main() -> register(n, self()), {whereis(n), whereis(o)}.' 'finished {<0>,undefined}' '<0> whereis n' \
    '<0> whereis o'
  row 'whereis of no atom' 'main() -> whereis(1).' 'ended {badarg,[]}' '<0> raise badarg'
  row 'receive of the oldest that fits' \
    'main() -> self() ! a, self() ! {b, 1}, self() ! {b, 2}, f(3). f(0) -> receive {b, X} -> X end; f(N) -> receive never -> ok; {c, N} -> ok; a -> f(0) end.' 'finished 1' '<0> receive a' '<0> receive {b,1}'
  row 'a receive that waits' 'main() -> receive never -> ok end.' 'deadlock <0>' '<0> wait'
  row 'an end' 'main() -> g().' 'finished ok' '<0> end normal'
}

deliveries() {
  waits='h(_) -> receive X -> X end.'
  row 'a message' "main() -> spawn(m, h, [1]) ! hi. $waits" 'finished hi' '<0>-><1> deliver message' '<1> receive hi'
  row 'a message to who ended' 'main() -> P = spawn(m, g, []), self() ! go, receive go -> P ! hi end.' 'finished hi'
  row 'a link' "main() -> link(spawn(m, h, [1])). $waits" 'finished true' '<0>-><1> deliver link'
  row 'an unlink' "main() -> P = spawn_link(m, h, [1]), unlink(P). $waits" 'finished true' '<0> unlink <1>' \
    '<0>-><1> deliver unlink'
  row 'a monitor' "main() -> monitor(process, spawn(m, h, [1])). $waits" 'finished #Ref<0>' '<0>-><1> deliver monitor'
  row 'a demonitor' "main() -> demonitor(monitor(process, spawn(m, h, [1]))). $waits" 'finished true' \
    '<0>-><1> deliver demonitor'
  row 'down' "main() -> P = spawn(m, h, [1]), monitor(process, P), P ! hi, receive X -> X end. $waits" \
    "finished {'DOWN',#Ref<0>,process,<1>,normal}" '<1>-><0> deliver down'
  row 'exit by link' "main() -> process_flag(trap_exit, true), spawn_link(m, h, [1]) ! hi, receive X -> X end. $waits" \
    "finished {'EXIT',<1>,normal}" '<1>-><0> deliver exit message'
  row 'exit kill' \
    "main() -> process_flag(trap_exit, true), P = spawn_link(m, h, [1]), exit(P, kill), receive X -> X end. $waits" \
    "finished {'EXIT',<1>,killed}" '<0>-><1> deliver exit ends killed'
  row 'exit for who traps' "main() -> process_flag(trap_exit, true), exit(self(), gone), receive X -> X end." \
    "finished {'EXIT',<0>,gone}" '<0>-><0> deliver exit message'
  row 'exit normal' "main() -> P = spawn(m, h, [1]), exit(P, normal). $waits" 'finished true' \
    '<0>-><1> deliver exit dropped'
  row 'another exit' "main() -> P = spawn(m, h, [1]), exit(P, gone). $waits" 'finished true' \
    '<0>-><1> deliver exit ends gone'
}
contractions
actions
deliveries
tell_counts
