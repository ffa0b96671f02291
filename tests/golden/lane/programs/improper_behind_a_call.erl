-module(m).
-export([main/0]).
main() -> [f(1) | f(2)].
f(N) -> {N}.
