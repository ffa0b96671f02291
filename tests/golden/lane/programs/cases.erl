-module(m).
-export([main/0]).
main() -> [f({a, 1}), f({b, [2, 3]}), f([4 | [{5}]]), f([]), f({c}), f(self())].
f(X) -> case X of {a, N} when N > 0 -> N; {b, [H | _]} -> H; [N | _] -> N; [] -> nil; P when is_pid(P) -> pid; _ -> g(X) end.
g(X) -> case h(X) of {{c}, N} -> N; _ -> no end.
h(X) -> {X, 9}.
