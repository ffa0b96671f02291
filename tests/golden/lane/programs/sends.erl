-module(m).
-export([main/0]).
main() -> S = self(), M = {b, 1}, S ! a, S ! M, S ! 1 + 2, me() ! c, me() ! {d, me()}, S ! [e | f()], X = (S ! {g, 7}), {X, all(7)}.
me() -> self().
f() -> [h].
all(0) -> [];
all(N) -> receive M -> [M | all(N - 1)] end.
