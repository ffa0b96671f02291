-module(m).
-export([main/0]).
main() -> X = 1, Y = {X}, [Y | f(X)].
f(N) -> {N}.
