-module(f).
-export([sum/0, nested/0, matched/0, cased/0, iffed/0, called/0, began/0, exits/0, sends/0, undefined/0, takes/1, killed/0, waits/0, loops/0, fib/0]).
sum() -> 1 + ok().
ok() -> ok.
nested() ->
  A = 1,
  B = A + 1,
  {A, [B, hd(
    tail([]))]}.
tail(L) -> L.
matched() ->
  {ok, X} =
    wrong(),
  X.
wrong() -> {error, 1}.
cased() ->
  N = 1,
  case N of
    2 -> ok
  end.
iffed() ->
  N = 1, if N > 1 -> ok end.
called() ->
  N = 3, one(N)
  .
one(1) -> ok.
began() -> spawn(f, takes, [3]), receive never -> ok end.
takes(1) -> ok.
exits() ->
  exit({bad, self()}).
sends() -> nobody ! hello,
  ok.
undefined() -> spawn(f, missing, []), ok.
killed() -> P = spawn_link(f, waits, []), exit(P, kill), receive never -> ok end.
waits() -> receive never -> ok end.
loops() -> loops().
fib() -> half(6) + half(
  half(2))
  * half(half(3)).
half(N) when N rem 2 =:= 0 -> N div 2;
half(_) -> odd.
