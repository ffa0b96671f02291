#!/bin/sh
# Runs programs of common contractions (calls of own functions, operators on integers, `case`, matches, commas, lists in
# arguments) from `main` within each limit from 1 to 60: below the steps that a program takes the run is cut after just
# so many, and from there on it ends as it should. Steps and values are worked out here by hand: each call, operator,
# element of a list, match, comma, clause of a `case` and raise is a step, and so are the call of `main` and its end.
#
#
# The programs of `programs/` make tuples, lists and messages, choose clauses by them, and ask for actions. Each runs by
# a seed, within each limit from 1 to 60 and whole. NAME.texts holds the sums of what then goes out, and the text of the
# whole run: a machine whose lane was never entered made them.
#
# Usage: run.sh [BINARY]; the program is that of the crate `pulsefarm` where none is named.
set -u
top=$(cd "$(dirname "$0")/../../.." && pwd)
# shellcheck source=tests/compare.sh
. "$top/tests/compare.sh"

# Runs the module in `$room/in` within each limit; $1 names it, $2 are its steps, $3 is the status at its end, and what
# then goes out is `$room/whole`.
by_limits() {
  limit=1
  while [ "$limit" -le 60 ]; do
    if [ "$limit" -lt "$2" ]; then
      printf '0/1 <0> cut\nlimit\nsteps %s\nproperty fails\n' "$limit" > "$room/wanted"
      wanted=1
    else
      cp "$room/whole" "$room/wanted"
      wanted=$3
    fi
    compare "$1, limit $limit" "$wanted" "$room/in" "$room/wanted" run --root main --limit "$limit" --schedule none
    limit=$((limit + 1))
  done
}

# Puts the functions from $1 on into `$room/in`.
module_is() { write_module "$room/in" main/0 "$@"; }

# The module returns $2 after $3 steps; $1 names it, and its functions follow.
returns() {
  name=$1 value=$2 steps=$3
  shift 3
  module_is "$@"
  printf '0/1 <0> end normal\nfinished %s\nsteps %s\nproperty holds\n' "$value" "$steps" > "$room/whole"
  by_limits "$name" "$steps" 0
}

# It ends with the reason $2.
ends() {
  name=$1 reason=$2 steps=$3
  shift 3
  module_is "$@"
  printf '0/1 <0> end %s\nended %s\nsteps %s\nproperty fails\n' "$reason" "$reason" "$steps" > "$room/whole"
  by_limits "$name" "$steps" 1
}

# Each round is a clause, an operator and a call.
loop='loop(N) -> case N of 0 -> done; _ -> loop(N - 1) end.'
returns 'a loop' 'done' 40 'main() -> loop(12).' "$loop"
# Each level is a clause, an operator, a call, and an operator after it.
returns 'a sum' 15 24 'main() -> sum(5).' 'sum(N) -> case N of 0 -> 0; _ -> N + sum(N - 1) end.'
returns 'a sum whose right side is short' 15 24 'main() -> sum(5).' \
  'sum(N) -> case N of 0 -> 0; _ -> sum(N - 1) + N end.'
# fib(0) and fib(1) are a clause, fib(2) 8 steps, fib(3) 15, fib(4) 29, fib(5) 50.
returns 'two calls' 5 53 'main() -> fib(5).' 'fib(N) -> case N of 0 -> 0; 1 -> 1; _ -> fib(N - 1) + fib(N - 2) end.'
returns 'matches' 1 12 'main() -> A = 2 + 3, B = A * 4, C = B - A, C rem 7.'
returns 'a match of two variables' 25 7 'main() -> A = B = 2 + 3, A * B.'
returns 'matches around calls' 8 15 'main() -> f(2).' \
  'f(N) -> A = N + 1, B = g(A) + A, case B of 7 -> A * N; _ -> B end.' 'g(X) -> Y = X * 2, Y - 1.'
returns 'comparisons' 3 17 'main() -> f(0).' 'f(N) -> case N > 2 of true -> N; false -> f(N + 1) end.'
returns 'arguments' 64 12 'main() -> f(g(1), g(2) + g(3), 4).' 'f(A, B, C) -> A + B + C.' 'g(X) -> X * 10.'
returns 'no argument' 7 4 'main() -> f() + 3.' 'f() -> 4.'
returns 'a clause with a guard' big 10 'main() -> f(0).' 'f(N) -> case N of M when M > 5 -> big; _ -> f(N + 3) end.'
returns 'a clause with a variable' 9 6 'main() -> f(4).' 'f(N) -> case N + 1 of 4 -> no; M -> M + N end.'
returns 'a clause with a bound variable' same 4 'main() -> f(4, 4).' \
  'f(N, M) -> case N of [] -> nil; {_} -> tuple; M -> same; _ -> other end.'
returns 'atoms' 'done' 6 'main() -> f(go).' 'f(A) -> case A of stop -> done; go -> f(stop) end.'
returns 'a case of a call' two 7 'main() -> f(3).' 'f(N) -> case g(N) of 1 -> one; 2 -> two end.' \
  'g(N) -> case N of 3 -> N - 1; _ -> N end.'
returns 'values of more than a word' '[{1,a},2]' 9 'main() -> f({1, a}, 1).' 'f(T, N) -> g(T, N + 1).' \
  'g(T, N) -> [T | h(N)].' 'h(N) -> [N].'
returns 'a list that is reversed' '[3,2,1]' 16 'main() -> rev([1, 2, 3], []).' \
  'rev(L, A) -> case L of [] -> A; [X | T] -> rev(T, [X | A]) end.'
returns 'clauses of a function' 3 12 'main() -> len([a, b, c]).' 'len([]) -> 0; len([_ | T]) -> 1 + len(T).'
returns 'clauses with a guard' big 7 'main() -> f(1).' 'f(N) when N > 2 -> big; f(N) -> f(N + 1).'
returns 'division below zero' -31 8 'main() -> f(0 - 7, 2).' 'f(X, Y) -> X div Y * 10 + X rem Y.'
returns 'division by less than zero' -29 8 'main() -> f(7, 0 - 2).' 'f(X, Y) -> X div Y * 10 + X rem Y.'
returns 'the least integer' -9223372036854775808 5 'main() -> f(0 - 9223372036854775807).' 'f(N) -> N - 1.'

overflow='{system_limit,[]}'
arithmetic='{badarith,[]}'
most=9223372036854775807
ends 'a sum past 64 bits' "$overflow" 4 "main() -> f($most)." 'f(N) -> N + 1.'
ends 'a difference past 64 bits' "$overflow" 5 "main() -> f(0 - $most)." 'f(N) -> N - 2.'
ends 'a product past 64 bits' "$overflow" 4 "main() -> f($most)." 'f(N) -> N * 2.'
ends 'a sum past 64 bits in an argument' "$overflow" 3 "main() -> f($most + 1)." 'f(N) -> N.'
ends 'a sum past 64 bits behind a call' "$overflow" 4 "main() -> f() + $most." 'f() -> 1.'
ends 'an atom on the left' "$arithmetic" 4 'main() -> f(a).' 'f(N) -> N + 1.'
ends 'an atom on the right' "$arithmetic" 4 'main() -> f(a).' 'f(N) -> 1 + N.'
ends 'an atom on the left, from a call' "$arithmetic" 4 'main() -> f() + 1.' 'f() -> a.'
ends 'an atom on the right, from a call' "$arithmetic" 4 'main() -> 1 + f().' 'f() -> a.'
ends 'an atom on the left, in a slot' "$arithmetic" 6 'main() -> N = a, N + f().' 'f() -> 1.'
ends 'an atom before a call' "$arithmetic" 5 'main() -> f() + g().' 'f() -> a.' 'g() -> 1.'
ends 'a division by zero' "$arithmetic" 4 'main() -> f(0).' 'f(N) -> 5 div N.'
ends 'a remainder by zero' "$arithmetic" 4 'main() -> f(0).' 'f(N) -> 5 rem N.'
ends 'no clause of a function' '{function_clause,[]}' 3 'main() -> f(3).' 'f(0) -> a; f(1) -> b.'
ends 'no clause of a function in an argument' '{function_clause,[]}' 4 'main() -> g(f(1 + 2), 4).' \
  'f(0) -> a; f(1) -> b.' 'g(X, Y) -> X + Y.'
ends 'a list with no list behind' '{badarg,[]}' 4 'main() -> f(a, b).' 'f(X, Y) -> g([X | Y]).' 'g(L) -> L.'
ends 'no clause' '{{case_clause,3},[]}' 4 'main() -> f(3).' 'f(N) -> case N of 0 -> a; 1 -> b; c -> d end.'
ends 'no clause of a call' '{{case_clause,3},[]}' 4 'main() -> case f(3) of 0 -> a end.' 'f(N) -> N.'
ends 'no match' '{{badmatch,3},[]}' 5 'main() -> f(3).' 'f(N) -> 4 = N + 0, done.'

# What the module $1 makes within each limit from 1 to 60, by sums, and the text of its whole run.
texts_of() {
  limit=1
  while [ "$limit" -le 60 ]; do
    timeout 120 "$program" run --root main --limit "$limit" --seed 1 < "$1" > "$room/run" 2>&1
    echo "limit $limit: status $?, sum $(cksum < "$room/run")"
    limit=$((limit + 1))
  done
  timeout 120 "$program" run --root main --limit 10000 --seed 1 < "$1" 2>&1
  echo "status $?"
}

for module in "$top"/tests/golden/lane/programs/*.erl; do
  name=$(basename "$module" .erl)
  texts_of "$module" > "$room/out"
  : > "$room/err"
  cmp -s "$room/out" "${module%.erl}.texts"
  note "$name" $?
done
tell_counts
