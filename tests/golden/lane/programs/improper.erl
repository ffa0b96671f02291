-module(m).
-export([main/0]).
main() -> [1 | f(2)].
f(N) -> [N | {N}].
