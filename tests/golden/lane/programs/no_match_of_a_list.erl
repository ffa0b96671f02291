-module(m).
-export([main/0]).
main() -> L = list(2), [A, B] = L, [A, B, C] = L, C.
list(0) -> [];
list(N) -> [N | list(N - 1)].
