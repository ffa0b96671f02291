-module(refused_argument).
-export([main/0]).
main() ->
    _ = erlang:statistics(run_queue),
    erlang:statistics(reductions).
%% refused: 5: erlang:statistics(reductions) is not translated, other arguments are (port/ENCODINGS.md); write what you need of it yourself
