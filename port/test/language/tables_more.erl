%% Tables whose key isn't first, parts of what is found, heirs, names that change, and more of match specifications.
-module(tables_more).
-export([main/0]).

-record(item, {key, size = 0}).

main() ->
    T = ets:new(items, [ordered_set, named_table, public, {keypos, #item.key}]),
    true = ets:insert(T, [#item{key = K, size = K * 10} || K <- [3, 1, 2, 5, 4]]),
    Keys = {ets:first(T), ets:next(T, 1), ets:next(T, 5), ets:last(T), ets:prev(T, 3), ets:prev(T, 1)},
    Spec = [{#item{key = '$1', size = '$2'}, [{'>', '$2', 10}, {'=:=', {'rem', '$1', 2}, 1}], [{{'$2', '$1'}}]}],
    All = [{'_', [], ['$_']}],
    {Keys, ets:select(T, Spec), parts(ets:select(T, All, 2)), ets:select_reverse(T, Spec), parts(ets:match(T, #item{key = '$1', size = '_'}, 3)),
     ets:foldr(fun(#item{key = K}, A) -> [K | A] end, [], T), ets:rename(T, things), tried(fun() -> ets:lookup(items, 1) end), ets:lookup(things, 1),
     ets:select(things, [{#item{key = '$1', _ = '_'}, [{'or', {'==', '$1', 1}, {'and', {is_number, '$1'}, {'>=', '$1', 5}}}], ['$1']}]),
     lists:member(things, ets:all()), inherited(), unnamed(), counters()}.

parts('$end_of_table') -> [];
parts({Part, '$end_of_table'}) -> [Part];
parts({Part, More}) -> [Part | parts(case hd(Part) of [_ | _] -> ets:match(More); _ -> ets:select(More) end)].

inherited() ->
    Me = self(),
    Owner = spawn(fun() ->
        U = ets:new(left, [public, {heir, Me, data}]),
        true = ets:insert(U, {a, 1}),
        Me ! {table, U},
        receive stop -> ok end
    end),
    U = receive {table, Given} -> Given end,
    Known = ets:info(U, heir) =:= Me,
    Owner ! stop,
    receive {'ETS-TRANSFER', U, Owner, data} -> {Known, ets:lookup(U, a), ets:info(U, owner) =:= Me, ets:setopts(U, {heir, none})} end.

unnamed() ->
    U = ets:new(one, []),
    {ets:rename(U, two) =:= U, ets:info(U, name), ets:info(U, named_table)}.

%% Several counters of an object at once: all of them, or none.
counters() ->
    C = ets:new(counters, []),
    true = ets:insert(C, {a, 1, 10, text}),
    Made = ets:update_counter(C, a, [{2, 5}, {3, -4}, {2, 1, 6, 0}]),
    Failed = [tried(fun() -> ets:update_counter(C, K, Ops) end) || {K, Ops} <- [{a, [{2, 1}, {4, 1}]}, {a, [1]}, {b, [{2, 1}]}, {a, [{2, 1}, {9, 1}]}]],
    {Made, Failed, ets:update_counter(C, a, []), ets:update_counter(C, b, [{2, 3}, {3, 4}], {x, 1, 1}), ets:lookup(C, a), ets:lookup(C, b)}.

tried(F) -> try F() catch C:R -> {C, R} end.
