%% Functions that another module doesn't export, by a call, a fun and a spawn.
-module(hidden).
-export([main/0]).

main() ->
    {_, {undef, _}} = (catch hides:inside()),
    Fun = fun hides:inside/0,
    {_, {undef, _}} = (catch Fun()),
    {P, R} = spawn_monitor(hides, inside, []),
    {undef, _} = receive {'DOWN', R, process, P, Why} -> Why end,
    hides:outside().
