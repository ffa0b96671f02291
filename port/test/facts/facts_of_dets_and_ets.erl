%% Tables of ets to dets and back, and a table of dets that is open for reading alone: each is the same on erl and in
%% every run of the tool.
-module(facts_of_dets_and_ets).
-export([main/0]).

main() -> others() ++ read_only().

t(F) -> try F() of V -> V catch C:R -> {C, R} end.

sorted(L) when is_list(L) -> lists:sort(L);
sorted(Other) -> Other.

others() ->
    T = facts_dets_others,
    {ok, T} = dets:open_file(T, [{type, bag}]),
    E = ets:new(e, [bag]),
    F = ets:new(f, []),
    ets:insert(E, [{1, a}, {1, b}, {2, c}]),
    L = [ets:to_dets(E, T), sorted(dets:match_object(T, '_')), ets:info(E, safe_fixed), ets:from_dets(F, T), [K || {K, _} <- lists:sort(ets:tab2list(F))], dets:to_ets(T, F) =:= F,
         t(fun() -> ets:to_dets(nothing, T) end), t(fun() -> ets:to_dets(E, nothing) end), t(fun() -> ets:from_dets(nothing, T) end), t(fun() -> ets:from_dets(F, nothing) end),
         t(fun() -> dets:from_ets(T, nothing) end), t(fun() -> dets:to_ets(nothing, F) end), dets:from_ets(T, ets:new(none, [])), dets:match_object(T, '_')],
    ok = dets:close(T),
    L.

read_only() ->
    T = facts_dets_read,
    {ok, T} = dets:open_file(T, []),
    dets:insert(T, {1, a}),
    ok = dets:close(T),
    {ok, T} = dets:open_file(T, [{access, read}]),
    E = ets:new(e, []),
    L = [dets:lookup(T, 1), dets:insert(T, {2, b}), dets:insert(T, x), dets:delete(T, 1), dets:match_delete(T, '_'), dets:select_delete(T, [{'_', [], [true]}]),
         dets:update_counter(T, 1, 1), dets:insert_new(T, {1, a}), dets:delete_object(T, {1, a}), dets:from_ets(T, E), t(fun() -> ets:to_dets(E, T) end), dets:info(T, access), dets:open_file(T, []),
         dets:init_table(T, fun(_) -> end_of_input end)],
    dets:close(T),
    L.
