-module(m).
-export([main/0]).
main() -> f(9223372036854775807).
f(N) -> {N - 1, N + 1, N}.
