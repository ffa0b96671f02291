-module(m).
-export([main/0, f/1]).
main() -> P = spawn(?MODULE, f, [{self(), [1 + 1, 2]}]), receive {P, X} -> {X, is_pid(P)} end.
f({P, [A, B]}) -> M = {self(), A + B}, P ! M, exit({done, A}).
