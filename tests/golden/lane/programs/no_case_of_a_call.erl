-module(m).
-export([main/0]).
main() -> case f(1) of {2, _} -> a; {N, M} when N > M -> b end.
f(N) -> {N, N}.
