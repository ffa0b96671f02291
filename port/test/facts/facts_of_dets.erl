%% Tables of dets, their files and what they have: each is the same on erl and in every run of the tool. A run begins
%% without files. The order of a table that has none is left out.
-module(facts_of_dets).
-export([main/0]).

main() -> opened() ++ closed() ++ contents().

t(F) -> try F() of V -> V catch C:R -> {C, R} end.

sorted(L) when is_list(L) -> lists:sort(L);
sorted(Other) -> Other.

opened() ->
    T = facts_dets_opened,
    [t(fun() -> dets:open_file("facts_no_such") end), t(fun() -> dets:open_file(T, [{access, read}, {file, "facts_none"}]) end),
     t(fun() -> dets:open_file(T, [{type, ordered_set}]) end), t(fun() -> dets:open_file(T, [x]) end), t(fun() -> dets:open_file(T, {keypos, 0}) end),
     t(fun() -> dets:open_file({a, b}, []) end), t(fun() -> dets:open_file(T, [{min_no_slots, 500}, {max_no_slots, 300}]) end),
     t(fun() -> dets:open_file({a, b}, [{file, "facts_pair"}, {type, bag}, {keypos, 2}]) end), t(fun() -> dets:open_file({a, b}, [{file, "facts_pair"}]) end),
     dets:info({a, b}, keypos), t(fun() -> dets:close({a, b}) end), t(fun() -> dets:open_file({a, b}, [{file, "facts_pair"}, {keypos, 2}]) end),
     t(fun() -> dets:open_file({a, b}, [{file, "facts_pair"}, {type, bag}]) end), dets:is_dets_file("facts_pair"), dets:is_dets_file("facts_no_such"),
     case dets:open_file("facts_pair") of {ok, R} -> {dets:info(R, type), dets:info(R, filename), dets:close(R), dets:info(R)} end].

closed() ->
    T = facts_dets_closed,
    {ok, T} = dets:open_file(T, []),
    {ok, T} = dets:open_file(T, []),
    ok = dets:insert(T, {1, a}),
    Me = self(),
    Ask = fun(F) -> {P, M} = spawn_monitor(fun() -> Me ! {self(), F()} end), receive {P, V} -> receive {'DOWN', M, process, P, _} -> V end end end,
    [Ask(fun() -> dets:close(T) end), Ask(fun() -> dets:lookup(T, 1) end), Ask(fun() -> {ok, T} = dets:open_file(T, []), dets:insert(T, {2, b}) end),
     users(T, [Me, Me]), dets:close(T), lists:member(T, dets:all()), dets:lookup(T, 2), dets:close(T), lists:member(T, dets:all()), dets:close(T), dets:info(T), dets:info(T, size),
     t(fun() -> dets:lookup(T, 1) end), t(fun() -> dets:insert(T, {1, b}) end), t(fun() -> dets:first(T) end), t(fun() -> dets:sync(T) end),
     case dets:open_file(T, []) of {ok, T} -> {sorted(dets:match_object(T, '_')), dets:close(T)} end].

%% who has ended isn't a user any more once its end has come to dets
users(T, Users) ->
    case dets:info(T, users) of
        Users -> ok;
        _ -> timer:sleep(1), users(T, Users)
    end.

contents() ->
    [{Type, contents(Type)} || Type <- [set, bag, duplicate_bag]].

contents(Type) ->
    T = {facts, Type},
    {ok, T} = dets:open_file(T, [{type, Type}, {file, atom_to_list(Type) ++ "_facts"}]),
    All = fun() -> sorted(dets:match_object(T, '_')) end,
    L = [dets:insert(T, [{1, a}, {2, b}, {1, c}, {1, a}]), All(), t(fun() -> dets:insert(T, [{3, x}, y]) end), t(fun() -> dets:insert(T, {}) end), All(),
         dets:insert_new(T, {2, z}), dets:insert_new(T, [{4, d}, {5, e}]), t(fun() -> dets:insert_new(T, x) end), sorted(dets:lookup(T, 1)), dets:member(T, 4), dets:member(T, 9),
         dets:info(T, size), dets:info(T, no_objects), dets:info(T, no_keys), dets:info(T, nothing), dets:info(T, ram_file), dets:info(T, access), dets:info(T, auto_save),
         [I || {K, _} = I <- dets:info(T), K =/= file_size], dets:delete_object(T, {1, a}), All(), dets:delete(T, 2), dets:delete(T, 77), All(), t(fun() -> dets:delete_object(T, x) end),
         sorted(dets:foldl(fun({K, _}, A) -> [K | A] end, [], T)), sorted(dets:traverse(T, fun({K, _}) when K > 3 -> {continue, K}; (_) -> continue end)),
         dets:traverse(T, fun(_) -> stopped end), length(dets:traverse(T, fun(_) -> {done, x} end)), dets:sync(T), dets:delete_all_objects(T), All(), dets:first(T)],
    ok = dets:close(T),
    L.
