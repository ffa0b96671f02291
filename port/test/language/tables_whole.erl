%% Tables with options, names and references, those that are fixed, given away and inherited, and written to files.
-module(tables_whole).
-export([main/0]).

main() ->
    {made(), named(), options(), fixed(), files(), continued(), heirs(), left_over()}.

tried(F) -> try {ok, F()} catch C:R -> {C, R} end.

made() ->
    Bad = [{"t", []}, {t, x}, {t, [x]}, {t, [{keypos, 0}]}, {t, [{keypos, a}]}, {t, [{heir, x, y}]}, {t, [{write_concurrency, x}]}, {t, [{read_concurrency, auto}]}],
    Last = ets:new(t, [set, private, bag, public, {keypos, 2}, {keypos, 1}]),
    {[tried(fun() -> ets:new(N, O) end) || {N, O} <- Bad], [ets:info(Last, I) || I <- [type, protection, keypos]]}.

named() ->
    t = ets:new(t, [named_table, public]),
    Tid = ets:whereis(t),
    true = ets:insert(Tid, {a, 1}),
    Again = tried(fun() -> ets:new(t, [named_table]) end),
    Id = ets:info(t, id) =:= Tid,
    u = ets:rename(t, u),
    Seen = {is_reference(Tid), ets:lookup(u, a), ets:lookup(Tid, a), ets:whereis(t), ets:whereis(u) =:= Tid, Id, Again, lists:member(u, ets:all()), ets:info(Tid, name)},
    ets:delete(Tid),
    {Seen, ets:whereis(u), tried(fun() -> ets:lookup(u, a) end), tried(fun() -> ets:whereis(1) end), ets:info(u, size), tried(fun() -> ets:delete(u) end)}.

options() ->
    Items = [compressed, read_concurrency, write_concurrency, decentralized_counters],
    Of = fun(Opts) -> T = ets:new(t, Opts), {[ets:info(T, I) || I <- Items], [V || {I, V} <- ets:info(T), lists:member(I, Items)]} end,
    [Of(Opts) || Opts <- [[], [compressed, {read_concurrency, true}], [{write_concurrency, true}], [ordered_set, {write_concurrency, true}],
                          [{write_concurrency, auto}], [ordered_set, {write_concurrency, true}, {decentralized_counters, false}]]].

fixed() ->
    T = ets:new(t, [public]),
    Me = self(),
    P = spawn(fun() -> ets:safe_fixtable(T, true), Me ! fixed, receive stop -> ok end end),
    receive fixed -> ok end,
    One = ets:info(T, fixed),
    M = monitor(process, P),
    P ! stop,
    receive {'DOWN', M, process, P, normal} -> ok end,
    ets:safe_fixtable(T, true),
    Two = ets:info(T, fixed),
    ets:safe_fixtable(T, false),
    {One, Two, ets:info(T, fixed), tried(fun() -> ets:safe_fixtable(nothing, true) end)}.

files() ->
    Name = "tables_whole.tab",
    none = case ets:file2tab(Name) of {error, {read_error, {file_error, _, enoent}}} -> none end,
    T = ets:new(kept, [ordered_set, public, {keypos, 2}]),
    true = ets:insert(T, [{a, 1}, {b, 2}]),
    ok = ets:tab2file(T, Name),
    true = ets:insert(T, {c, 3}),
    {ok, U} = ets:file2tab(Name, [{verify, true}]),
    Read = {ets:tab2list(U), [ets:info(U, I) || I <- [name, type, keypos, protection, size]]},
    ok = ets:tab2file(T, Name, [{extended_info, [object_count]}]),
    {ok, Info} = ets:tabfile_info(Name),
    k = ets:new(k, [named_table]),
    ok = ets:tab2file(k, Name),
    Taken = ets:file2tab(Name),
    ets:delete(k),
    Free = ets:file2tab(Name),
    {Read, Info, Taken, Free, ets:tab2file(nothing, Name), ets:tab2file(T, Name, [x]), ets:file2tab(Name, [x])}.

continued() ->
    T = ets:new(t, [ordered_set]),
    true = ets:insert(T, [{I, I rem 2} || I <- lists:seq(1, 5)]),
    {L1, C1} = ets:select(T, [{{'$1', '_'}, [], ['$1']}], 2),
    {L2, C2} = ets:select(C1),
    {L3, C3} = ets:select(C2),
    {R1, D1} = ets:select_reverse(T, [{{'$1', '_'}, [], ['$1']}], 3),
    {R2, _} = ets:select_reverse(D1),
    {M1, E1} = ets:match(T, {'$1', 1}, 2),
    {M2, E2} = ets:match(E1),
    {[L1, L2, L3, C3], R1, R2, M1, M2, E2, ets:match_object(E2), tried(fun() -> ets:select(x) end), ets:foldl(fun({K, _}, A) -> [K | A] end, [], T)}.

heirs() ->
    Me = self(),
    Given = fun(Opts) ->
        {P, M} = spawn_monitor(fun() -> T = ets:new(t, Opts), Me ! {made, T} end),
        T = receive {made, X} -> X end,
        receive {'DOWN', M, process, P, normal} -> ok end,
        case Opts of
            [] -> gone;
            _ -> receive {'ETS-TRANSFER', T, P, Data} -> {Data, ets:info(T, owner) =:= Me, ets:info(T, heir) =:= Me} end
        end
    end,
    {Given([{heir, Me, data}]), Given([{heir, none}, {heir, Me, last}]), tried(fun() -> ets:give_away(nothing, Me, x) end),
     tried(fun() -> ets:give_away(ets:new(t, []), Me, x) end)}.

left_over() ->
    T = ets:new(t, [duplicate_bag, public]),
    true = ets:insert(T, [{a, 1}, {a, 1}, {b, 2}]),
    One = ets:select_delete(T, [{{a, '_'}, [], [true]}]),
    true = ets:insert(T, [{a, 1}, {a, 1}]),
    {One, ets:lookup_element(T, a, 2), ets:delete_object(T, {a, 1}), ets:tab2list(T)}.
