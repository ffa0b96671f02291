%% ets:table, and what qlc makes of its handles: each is the same on erl and in every run of the tool. The order of a
%% table that has none is left out.
-module(facts_of_queries).
-export([main/0]).

main() ->
    T = ets:new(t, [ordered_set]),
    B = ets:new(b, [bag]),
    ets:insert(T, [{1, a}, {2, b}, {3, c}]),
    ets:insert(B, [{1, x}, {1, y}, {2, x}]),
    {ok, d} = dets:open_file(d, [{file, "facts_of_queries"}]),
    dets:insert(d, [{1, a}, {2, b}]),
    Handle = ets:table(T),
    L = handles(Handle, T, B) ++ lists(Handle) ++ wrong(T) ++ [lists:sort(qlc:e(dets:table(d))), qlc:e(dets:table(d, [{traverse, {select, [{{2, '$1'}, [], ['$1']}]}}])),
         t(fun() -> dets:table(d, [{traverse, last_prev}]) end)],
    ok = dets:close(d),
    L.

t(F) -> try F() of V -> V catch C:R -> {C, R} end.

handles(Handle, T, B) ->
    Before = qlc:eval(Handle),
    ets:insert(T, {4, d}),
    [is_tuple(Handle), element(1, Handle), Before, qlc:e(Handle), qlc:e(ets:table(T, {traverse, last_prev})), qlc:e(ets:table(T, [{traverse, first_next}])),
     qlc:e(ets:table(T, [{n_objects, 1}, {traverse, {select, [{{'$1', '_'}, [{'>', '$1', 1}], ['$1']}]}}])), lists:sort(qlc:e(ets:table(B))),
     qlc:fold(fun({K, _}, N) -> K + N end, 0, Handle), qlc:e(qlc:append(Handle, [x, y])), qlc:e(qlc:append([ets:table(T, {n_objects, default}), []]))].

lists(Handle) ->
    [qlc:e([c, a, b]), qlc:e(qlc:sort([c, a, b, a])), qlc:e(qlc:sort([c, a, b, a], [{unique, true}])), qlc:e(qlc:sort([c, a, b], {order, descending})), qlc:e([a, b, a], unique_all),
     qlc:e([a, b, a], [{unique_all, false}]), qlc:e(qlc:keysort(2, [{1, c}, {2, a}, {3, b}, {4, a}])), qlc:e(qlc:keysort(1, Handle, {order, descending})),
     qlc:e(qlc:sort(qlc:append([Handle, [{0, z}]]))), qlc:fold(fun(X, L) -> [X | L] end, [], [1, 2, 1], unique_all)].

wrong(T) ->
    [t(fun() -> ets:table(T, x) end), t(fun() -> ets:table(T, [{traverse, backwards}]) end), t(fun() -> ets:table(T, [{n_objects, 0}]) end), t(fun() -> ets:table(T, [{n_objects, 1}, {n_objects, 2}]) end),
     t(fun() -> ets:table(1) end), element(1, ets:table(nothing)), t(fun() -> qlc:e(ets:table(nothing)) end), t(fun() -> qlc:e(x) end), t(fun() -> qlc:e([], x) end),
     t(fun() -> qlc:append([x]) end), t(fun() -> qlc:sort(x) end), t(fun() -> qlc:sort([], [{order, sideways}]) end), t(fun() -> qlc:keysort(0, []) end)].
