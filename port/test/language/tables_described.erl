%% What a table says of itself, and a table that is given away.
-module(tables_described).
-export([main/0]).

main() ->
    T = ets:new(told, [ordered_set, protected, {keypos, 2}]),
    N = ets:new(named, [named_table, public]),
    true = ets:insert(T, [{a, 1}, {b, 2}]),
    Me = self(),
    [[ets:info(T, I) || I <- [name, type, keypos, protection, named_table, size, heir, node]],
     ets:info(T, owner) =:= Me, ets:info(N, named_table), ets:info(nothing, name), ets:info(nothing), [V || {K, V} <- ets:info(N), K =/= owner, known(K)],
     given(T), ets:match(N, {'$1', '_', '$7'}), ets:insert(N, {x, y, z}), ets:match(N, {'$1', '_', '$7'})].

known(K) -> lists:member(K, [heir, name, size, node, named_table, type, keypos, protection]).

given(T) ->
    Me = self(),
    P = spawn(fun() -> receive {'ETS-TRANSFER', Table, From, Data} -> Me ! {From =:= Me, Data, ets:insert(Table, {c, 3}), ets:info(Table, owner) =:= self()} end, receive stop -> ok end end),
    true = ets:give_away(T, P, gift),
    Given = receive {_, gift, _, _} = X -> X end,
    R = monitor(process, P),
    P ! stop,
    receive {'DOWN', R, _, _, _} -> ok end,
    {Given, try ets:insert(T, {d, 4}) catch error:badarg -> badarg end}.
