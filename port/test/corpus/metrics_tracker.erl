%% package: erlang-metrics
%% modules: metrics_process_tracker.beam
%% beside: metrics.erl
-module(metrics_tracker).
-export([main/0, race/0]).

main() ->
    {ok, Tracker} = metrics_process_tracker:start_link(),
    Told = metrics_process_tracker:track(one),
    Seen = {Told, metrics_process_tracker:track(one), length(ets:tab2list(metrics))},
    ok = gen_server:stop(Tracker), % else it would look for the table of who has ended
    Seen.

%% Who is tracked ends, and the table is read before the tracker knows of that.
race() ->
    {ok, _} = metrics_process_tracker:start_link(),
    {P, Monitor} = spawn_monitor(fun() -> metrics_process_tracker:track(one) end),
    receive {'DOWN', Monitor, process, P, normal} -> ok end,
    [] = [Row || {{_, one}, _} = Row <- ets:tab2list(metrics)].
