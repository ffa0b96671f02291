%% Tables: what may be done with them, by whom, and what is refused.
-module(tables).
-export([main/0]).

main() ->
    Me = self(),
    P = ets:new(protected, []),
    U = ets:new(public, [public, {keypos, 2}]),
    V = ets:new(private, [private, ordered_set]),
    true = ets:insert(P, [{a, 1}, {b, 2, x}]),
    true = ets:insert(V, [{3, c}, {1, a}, {2, b}]),
    spawn(fun() -> Me ! {other, [try_(fun() -> ets:insert(P, {c, 3}) end), try_(fun() -> ets:lookup(P, a) end), try_(fun() -> ets:insert(U, {x, k}) end),
                                 try_(fun() -> ets:lookup(V, 1) end), try_(fun() -> ets:delete(P) end)]} end),
    Other = receive {other, O} -> O end,
    {Other, ets:lookup(U, k),
     [try_(fun() -> ets:insert(P, X) end) || X <- [foo, {}, [{a, 5}, b]]], try_(fun() -> ets:insert(U, {a}) end), ets:lookup(P, a),
     [try_(fun() -> ets:update_counter(P, K, Op) end) || {K, Op} <- [{a, 2}, {a, {2, 3}}, {a, {2, 1, 5, 0}}, {b, {3, 1}}, {b, {9, 1}}, {a, {1, 1}}, {none, 1}, {a, x}]],
     try_(fun() -> ets:update_counter(P, new, 2, {new, 0}) end),
     [try_(fun() -> ets:update_element(P, K, E) end) || {K, E} <- [{b, {3, y}}, {b, [{2, 7}, {3, z}]}, {b, {1, q}}, {none, {2, 1}}, {b, {9, 1}}]], ets:lookup(P, b),
     {ets:first(V), ets:next(V, 1), ets:last(V), ets:prev(V, 3), ets:next(V, 3), ets:tab2list(V)},
     {ets:take(V, 2), ets:member(V, 2), ets:delete(V, 1), ets:tab2list(V), ets:delete_all_objects(V), ets:info(V, size)},
     ets:select(P, [{{'$1', '$2'}, [{'>', '$2', 4}], ['$1']}]), ets:match(P, {a, '$1'}), lists:sort(ets:match_object(P, {'_', '_'})),
     {ets:insert_new(P, {a, 0}), ets:insert_new(P, [{n, 1}, {a, 2}]), ets:insert_new(P, {n, 1}), ets:lookup_element(P, n, 2)},
     try_(fun() -> ets:lookup_element(P, zz, 2) end), ets:delete(P), try_(fun() -> ets:lookup(P, a) end)}.

try_(F) -> try F() of V -> {ok, V} catch C:R -> {C, R} end.
