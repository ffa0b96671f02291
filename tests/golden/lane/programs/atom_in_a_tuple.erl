-module(m).
-export([main/0]).
main() -> f(a, 1).
f(A, N) -> {N + N, {N, A + N}}.
