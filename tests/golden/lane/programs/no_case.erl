-module(m).
-export([main/0]).
main() -> X = {1, 2}, case X of {2, _} -> a; [_ | _] -> b end.
