-module(m).
-export([main/0]).
main() -> T = f({1, a, []}, 4), {A, B} = T, {{}, {A}, {B, g(B)}, {g(1) + 2, {h(T), T}}}.
f(X, N) -> {N - 1, {X, N * N, [N | [X]]}}.
g(X) -> X.
h({_, Y}) -> Y.
