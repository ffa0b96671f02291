%% What ets:info says of tables: the room, since when a table is fixed and by whom, large binaries and the places of a
%% hash.
-module(facts_of_table_info).
-export([main/0]).

main() -> lists:append([described(Type) || Type <- [set, ordered_set, bag, duplicate_bag]]) ++ fixed() ++ gone().

described(Type) ->
    T = ets:new(t, [Type, {keypos, 2}]),
    Empty = ets:info(T, memory),
    ets:insert(T, [{a, 1}, {b, 2, "text", {c}}, {<<"d">>, 3, #{k => -1.5}, {}, #{}}, {[], 1, [x | y(1)]},
                   {e, 4, self(), make_ref(), binary:copy(<<"f">>, 70), fun() -> ok end}]),
    Facts = ets:info(T),
    [Empty, [I || {I, _} <- Facts], [F || {I, _} = F <- Facts, I =/= id, I =/= owner],
     [ets:info(T, I) =:= V || {I, V} <- Facts],
     ets:info(T, memory), [Size || {_, Size, _} <- ets:info(T, binary)], stats(ets:info(T, stats)),
     begin ets:delete(T, 4), ets:info(T, binary) end].

y(N) -> [N].

stats(false) -> false;
stats({Places, Average, Deviation, Expected, Least, Most, Kept, Locks}) ->
    Near = [is_float(F) andalso F > 0.1 andalso F < 0.2 || F <- [Deviation, Expected]],
    {Places, Average, Near, Least, Most, Kept, is_integer(Locks)}.

fixed() ->
    T = ets:new(t, [public]),
    Me = self(),
    None = [ets:info(T, I) || I <- [fixed, safe_fixed, safe_fixed_monotonic_time]],
    Before = erlang:monotonic_time(),
    ets:safe_fixtable(T, true),
    ets:safe_fixtable(T, true),
    {Pid, M} = spawn_monitor(fun() ->
        ets:safe_fixtable(T, true),
        Me ! fixed,
        receive stop -> ets:safe_fixtable(T, false) end
    end),
    receive fixed -> ok end,
    {Since, By} = ets:info(T, safe_fixed_monotonic_time),
    {{A, B, C}, Also} = ets:info(T, safe_fixed),
    Both = [ets:info(T, fixed), Since >= Before, Since =< erlang:monotonic_time(),
            lists:sort(By) =:= lists:sort([{Me, 2}, {Pid, 1}]), lists:sort(Also) =:= lists:sort(By),
            lists:all(fun is_integer/1, [A, B, C])],
    Pid ! stop,
    receive {'DOWN', M, process, Pid, normal} -> ok end,
    {Same, Alone} = ets:info(T, safe_fixed_monotonic_time),
    ets:safe_fixtable(T, false),
    {Still, Once} = ets:info(T, safe_fixed_monotonic_time),
    ets:safe_fixtable(T, false),
    None ++ Both ++ [Same =:= Since, Alone =:= [{Me, 2}], Still =:= Since, Once =:= [{Me, 1}],
                     [ets:info(T, I) || I <- [fixed, safe_fixed, safe_fixed_monotonic_time]]].

gone() ->
    T = ets:new(t, []),
    ets:delete(T),
    [[ets:info(T, I) || I <- [memory, stats, fixed, safe_fixed, safe_fixed_monotonic_time]], ets:info(T),
     [try ets:info(Of, I) catch error:badarg -> no end || Of <- [x, T], I <- [memory, stats, binary]],
     try ets:fun2ms(fun({X}) -> X end) catch exit:{badarg, {ets, fun2ms, _}} -> untransformed end].
