%% What is found in a table of dets, counters and fixed tables: each is the same on erl and in every run of the tool.
-module(facts_of_dets_found).
-export([main/0]).

main() -> found() ++ counters() ++ fixed().

t(F) -> try F() of V -> V catch C:R -> {C, R} end.

sorted(L) when is_list(L) -> lists:sort(L);
sorted(Other) -> Other.

found() ->
    T = facts_dets_found,
    {ok, T} = dets:open_file(T, []),
    dets:insert(T, [{1, a, x}, {2, b, x}, {3, c, y}, {4, d}]),
    L = [sorted(dets:match(T, {'$1', '_', x})), sorted(dets:match_object(T, {'_', '_', x})), sorted(dets:select(T, [{{'$1', '$2', '_'}, [{'>', '$1', 1}], [{{'$2', '$1'}}]}])),
         t(fun() -> dets:select(T, x) end), t(fun() -> dets:select(T, [{{'$1'}, [], ['$2']}]) end), dets:match(T, {9, '$1', '_'}), dets:match(T, {2, '$1', '_'}, 1) =/= '$end_of_table',
         whole(dets:match(T, {'$1', '_', '_'}, 1), fun(C) -> dets:match(C) end), whole(dets:match_object(T, '_', default), fun(C) -> dets:match_object(C) end),
         whole(dets:select(T, [{{'$1', '_'}, [], ['$1']}], 2), fun(C) -> dets:select(C) end), element(1, dets:match(T, {x, y, z, '_', '_', '$1'}, 3)), t(fun() -> dets:match(T, '_', x) end), t(fun() -> dets:match(x) end),
         t(fun() -> dets:select(element(2, dets:match(T, {'$1', '_', x}, 1))) end), dets:match_delete(T, {'_', '_', y}), dets:select_delete(T, [{{'$1', '_', '_'}, [{'<', '$1', 2}], [true]}]),
         dets:select_delete(T, [{{'$1', '_', '_'}, [], [false]}]), t(fun() -> dets:select_delete(T, x) end), sorted(dets:match_object(T, '_')), walked(T, dets:first(T)),
         t(fun() -> dets:slot(T, -1) end), t(fun() -> dets:repair_continuation(x, []) end)],
    ok = dets:close(T),
    L.

whole('$end_of_table', _) -> [];
whole({L, C}, Go) -> sorted(L ++ whole(Go(C), Go)).

walked(_, '$end_of_table') -> [];
walked(T, K) -> sorted([K | walked(T, dets:next(T, K))]).

counters() ->
    T = facts_dets_counters,
    {ok, T} = dets:open_file(T, []),
    {ok, b} = dets:open_file(b, [{type, bag}, {file, "facts_bag"}]),
    dets:insert(T, [{a, 1, 7}, {b, x}, {3, 4}]),
    dets:insert(b, {a, 1}),
    L = [dets:update_counter(T, a, 2), dets:update_counter(T, a, {3, -9}), t(fun() -> dets:update_counter(T, b, 1) end), t(fun() -> dets:update_counter(T, c, 1) end),
         t(fun() -> dets:update_counter(T, a, {9, 1}) end), t(fun() -> dets:update_counter(T, a, x) end), t(fun() -> dets:update_counter(b, a, 1) end), dets:update_counter(T, 3, {1, 1}),
         sorted(dets:match_object(T, '_'))],
    ok = dets:close(T),
    ok = dets:close(b),
    L.

fixed() ->
    T = facts_dets_fixed,
    {ok, T} = dets:open_file(T, []),
    L = [dets:info(T, safe_fixed), dets:info(T, fixed), dets:safe_fixtable(T, true), dets:info(T, fixed), t(fun() -> dets:safe_fixtable(T, x) end), dets:init_table(T, fun(read) -> end_of_input; (close) -> ok end),
         dets:safe_fixtable(T, false), dets:info(T, fixed), dets:init_table(T, fun(read) -> {[{1, a}, {2, b}, {1, c}], fun(read) -> end_of_input end} end),
         sorted([K || {K, _} <- dets:match_object(T, '_')]), t(fun() -> dets:init_table(T, x) end), t(fun() -> dets:init_table(nothing, fun(_) -> end_of_input end) end)],
    ok = dets:close(T),
    L.
