%% dets after OTP 25, over files of the run in memory (pf_dets). Without what is of the form of a file: its room, its
%% slots, and bchunk.
-module(dets).
-compile([export_all, nowarn_export_all]).
-spec all() -> list().
all() -> pf_dets:ask(tables).

-spec open_file(term()) -> {ok, reference()} | {error, term()}.
open_file(File) ->
    case text(File) of
        Text when is_list(Text) -> pf_dets:ask({reopen, Text});
        _ -> error(badarg)
    end.

-spec open_file(term(), term()) -> {ok, term()} | {error, term()}.
open_file(Name, Args) when is_list(Args) ->
    File = text(given(file, Args, Name)),
    lists:all(fun is_argument/1, Args) andalso is_list(File) andalso fit(Args) orelse error(badarg),
    Config = {File, given(type, Args, set), given(keypos, Args, 1), given(access, Args, read_write),
              given(ram_file, Args, false)},
    pf_dets:ask({open, Name, Config, given(auto_save, Args, 180000)});
open_file(Name, Arg) -> open_file(Name, [Arg]).

-spec text(term()) -> term().
text(T) when is_atom(T) -> atom_to_list(T);
text(T) -> T.

%% the last one counts
-spec given(atom(), list(), term()) -> term().
given(Name, Args, Default) -> lists:last([Default | [V || {N, V} <- Args, N =:= Name]]).

-spec is_argument(term()) -> boolean().
is_argument({access, A}) -> A =:= read orelse A =:= read_write;
is_argument({auto_save, T}) -> is_time(T);
is_argument({cache_size, T}) -> is_time(T);
is_argument({delayed_write, default}) -> true;
is_argument({delayed_write, {T, N}}) -> is_number_of(T) andalso is_number_of(N);
is_argument({estimated_no_objects, N}) -> N =:= default orelse is_number_of(N);
is_argument({min_no_slots, N}) -> N =:= default orelse is_number_of(N);
is_argument({max_no_slots, N}) -> N =:= default orelse is_integer(N) andalso N > 0 andalso N < 1 bsl 31;
is_argument({file, _}) -> true;
is_argument({keypos, I}) -> is_integer(I) andalso I > 0;
is_argument({ram_file, On}) -> is_boolean(On);
is_argument({debug, On}) -> is_boolean(On);
is_argument({repair, How}) -> is_boolean(How) orelse How =:= force;
is_argument({type, T}) -> lists:member(T, [set, bag, duplicate_bag]);
is_argument({version, V}) -> V =:= default orelse V =:= 9;
is_argument(_) -> false.

-spec is_number_of(term()) -> boolean().
is_number_of(N) -> is_integer(N) andalso N >= 0.

-spec is_time(term()) -> boolean().
is_time(T) -> T =:= infinity orelse is_number_of(T).

%% the least number of slots is 256 at least, and no more than the greatest
-spec fit(list()) -> boolean().
fit(Args) ->
    Least = lists:last([default | [V || {N, V} <- Args, N =:= min_no_slots orelse N =:= estimated_no_objects]]),
    Most = given(max_no_slots, Args, default),
    Least =:= default orelse Most =:= default orelse max(Least, 256) =< Most.

-spec close(term()) -> ok | {error, term()}.
close(T) -> pf_dets:ask({close, T}).

-spec is_dets_file(term()) -> boolean() | {error, term()}.
is_dets_file(File) -> pf_dets:ask({is_file, File}) orelse {error, {file_error, File, enoent}}.

-spec insert(term(), term()) -> ok | {error, term()}.
insert(T, Xs) when is_list(Xs) -> pf_dets:ask({insert, T, Xs});
insert(T, X) -> pf_dets:ask({insert, T, [X]}).

-spec insert_new(term(), term()) -> boolean() | {error, term()}.
insert_new(T, Xs) when is_list(Xs) -> pf_dets:ask({insert_new, T, Xs});
insert_new(T, X) -> pf_dets:ask({insert_new, T, [X]}).

-spec delete(term(), term()) -> ok | {error, term()}.
delete(T, K) -> pf_dets:ask({delete, T, K}).

-spec delete_object(term(), term()) -> ok | {error, term()}.
delete_object(T, X) -> pf_dets:ask({delete_object, T, X}).

-spec delete_all_objects(term()) -> ok | {error, term()}.
delete_all_objects(T) -> pf_dets:ask({clear, T}).

-spec update_counter(term(), term(), term()) -> term().
update_counter(T, K, N) -> pf_dets:ask({update_counter, T, K, N}).

-spec sync(term()) -> ok.
sync(T) -> pf_dets:ask({sync, T}).

-spec safe_fixtable(term(), term()) -> ok.
safe_fixtable(T, On) when is_boolean(On) -> pf_dets:ask({fix, T, On, ets:fix_time()});
safe_fixtable(_, _) -> error(badarg).

%% ---- what a table has

-spec objects(term()) -> list().
objects(T) -> pf_dets:ask({all, T}).

-spec keypos(term()) -> pos_integer().
keypos(T) -> case info(T, keypos) of undefined -> error(badarg); Pos -> Pos end.

-spec lookup(term(), term()) -> list().
lookup(T, K) -> pf_dets:ask({lookup, T, K}).

-spec member(term(), term()) -> boolean().
member(T, K) -> lookup(T, K) =/= [].

-spec keys(term()) -> list().
keys(T) -> pf_dets:ask({keys, T}).

-spec first(term()) -> term().
first(T) -> first_of(keys(T)).

-spec next(term(), term()) -> term().
next(T, K) -> first_of([L || L <- keys(T), L > K]).

-spec first_of(list()) -> term().
first_of([]) -> '$end_of_table';
first_of([K | _]) -> K.

%% each key has a slot of its own
-spec slot(term(), term()) -> term().
slot(T, I) when is_integer(I), I >= 0 ->
    Keys = keys(T),
    case I < length(Keys) of true -> lookup(T, lists:nth(I + 1, Keys)); false -> '$end_of_table' end;
slot(_, _) -> error(badarg).

-spec foldl(term(), term(), term()) -> term().
foldl(F, A, T) -> lists:foldl(F, A, objects(T)).

-spec foldr(term(), term(), term()) -> term().
foldr(F, A, T) -> foldl(F, A, T).

-spec traverse(term(), term()) -> term().
traverse(T, F) -> traversed(objects(T), F, []).

-spec traversed(list(), term(), list()) -> term().
traversed([], _, Vs) -> Vs;
traversed([X | Xs], F, Vs) ->
    case F(X) of
        continue -> traversed(Xs, F, Vs);
        {continue, V} -> traversed(Xs, F, [V | Vs]);
        {done, V} -> [V | Vs];
        Other -> Other
    end.

-spec info(term()) -> list() | undefined.
info(T) ->
    case pf_dets:ask({info, T}) of
        false -> undefined;
        {_, {File, Type, Pos, _, _}, _, _, _, L} ->
            [{type, Type}, {keypos, Pos}, {size, length(L)}, {file_size, file_size(L)}, {filename, File}]
    end.

-spec info(term(), term()) -> term().
info(T, Item) ->
    case pf_dets:ask({info, T}) of
        false -> undefined;
        Table -> fact(Item, Table)
    end.

-spec fact(term(), tuple()) -> term().
fact(type, T) -> element(2, element(2, T));
fact(keypos, T) -> element(3, element(2, T));
fact(access, T) -> element(4, element(2, T));
fact(ram_file, T) -> element(5, element(2, T));
fact(filename, T) -> element(1, element(2, T));
fact(auto_save, T) -> element(3, T);
fact(users, T) -> element(4, T);
fact(fixed, T) -> element(5, T) =/= [];
fact(safe_fixed, T) -> ets:since(element(5, T), fun ets:timestamp/1);
fact(safe_fixed_monotonic_time, T) -> ets:since(element(5, T), fun(Ns) -> Ns end);
fact(size, T) -> length(element(6, T));
fact(no_objects, T) -> length(element(6, T));
fact(no_keys, T) -> Pos = fact(keypos, T), length(lists:usort([element(Pos, X) || X <- element(6, T)]));
fact(owner, _) -> erlang:whereis('port@dets');
fact(pid, _) -> erlang:whereis('port@dets');
fact(hash, _) -> phash2;
fact(version, _) -> 9;
fact(memory, T) -> file_size(element(6, T));
fact(file_size, T) -> file_size(element(6, T));
fact(Item, _) when Item =:= no_slots; Item =:= bchunk_format; Item =:= delayed_write ->
    prim:raw(exit, {refused, dets, info, 2});
fact(_, _) -> undefined.

%% bytes by a rule: 5,432 of an empty file, and of each object 8 for each word of its term, and 8
-spec file_size(list()) -> pos_integer().
file_size(Objects) -> 5432 + lists:sum([8 * pf_room:words(X) + 8 || X <- Objects]).

%% one process keeps all tables, so a pid has no name of its own
-spec pid2name(term()) -> undefined.
pid2name(P) -> P =:= erlang:whereis('port@dets') andalso prim:raw(exit, {refused, dets, pid2name, 1}), undefined.

%% ---- patterns and specifications

-spec select(term(), term()) -> list().
select(T, Ms) -> found(T, Ms).

-spec match(term(), term()) -> list().
match(T, P) -> found(T, [{P, [], ['$$']}]).

-spec match_object(term(), term()) -> list().
match_object(T, P) -> found(T, [{P, [], ['$_']}]).

-spec found(term(), term()) -> list().
found(T, Ms) -> pf_match:selected(checked(Ms), objects(T)).

-spec checked(term()) -> list().
checked(Ms) -> case pf_match:is_spec(Ms) of true -> Ms; false -> error(badarg) end.

-spec match_delete(term(), term()) -> ok | {error, term()}.
match_delete(T, P) -> pf_dets:ask({remove, T, to_delete(T, checked([{P, [], [true]}]))}).

-spec select_delete(term(), term()) -> non_neg_integer() | {error, term()}.
select_delete(T, Ms) ->
    Xs = to_delete(T, checked(Ms)),
    case pf_dets:ask({remove, T, Xs}) of ok -> length(Xs); Other -> Other end.

-spec to_delete(term(), list()) -> list().
to_delete(T, Ms) -> [X || X <- objects(T), pf_match:spec(Ms, X) =:= [true]].

%% What is found is found at once, and reported in parts: a continuation has the rest.
-spec select(term(), term(), term()) -> term().
select(T, Ms, N) -> part(T, Ms, select, N).

-spec match(term(), term(), term()) -> term().
match(T, P, N) -> part(T, [{P, [], ['$$']}], bindings, N).

-spec match_object(term(), term(), term()) -> term().
match_object(T, P, N) -> part(T, [{P, [], ['$_']}], object, N).

-spec part(term(), term(), atom(), term()) -> term().
part(T, Ms, What, N) ->
    N =:= default orelse is_number_of(N) orelse error(badarg),
    L = found(T, Ms),
    Pos = keypos(T),
    case lists:all(fun({H, _, _}) -> pf_match:keyed(H, Pos) end, Ms) of
        true -> {L, {'$dets', What, [], N}};
        false -> next_part(L, What, N)
    end.

-spec next_part(list(), atom(), term()) -> term().
next_part([], _, _) -> '$end_of_table';
next_part(L, What, N) when is_integer(N), N > 0, N < length(L) ->
    {Part, Rest} = lists:split(N, L),
    {Part, {'$dets', What, Rest, N}};
next_part(L, What, N) -> {L, {'$dets', What, [], N}}.

-spec select(term()) -> term().
select({'$dets', select, Rest, N}) -> next_part(Rest, select, N);
select(_) -> error(badarg).

-spec match(term()) -> term().
match({'$dets', bindings, Rest, N}) -> next_part(Rest, bindings, N);
match(_) -> error(badarg).

-spec match_object(term()) -> term().
match_object({'$dets', object, Rest, N}) -> next_part(Rest, object, N);
match_object(_) -> error(badarg).

-spec repair_continuation(term(), term()) -> term().
repair_continuation({'$dets', What, Rest, N}, _) -> {'$dets', What, Rest, N};
repair_continuation(_, _) -> error(badarg).

%% ---- whole tables

-spec to_ets(term(), term()) -> term().
to_ets(T, E) ->
    ets:info(E, protection) =:= undefined andalso error(badarg),
    foldl(fun(X, _) -> true = ets:insert(E, X), E end, E, T).

-spec from_ets(term(), term()) -> ok | {error, term()}.
from_ets(T, E) ->
    ets:safe_fixtable(E, true),
    L = ets:select(E, [{'_', [], ['$_']}]),
    Answer = try filled(T, L) catch error:badarg -> badarg end,
    ets:safe_fixtable(E, false),
    case Answer of badarg -> error(badarg); _ -> Answer end.

-spec filled(term(), list()) -> term().
filled(T, L) ->
    Pos = keypos(T),
    case ets:are_objects(L, Pos) of
        true -> pf_dets:ask({init, T, L});
        false -> prim:raw(exit, {refused, dets, init_table, 2})
    end.

-spec init_table(term(), term()) -> ok | {error, term()}.
init_table(T, F) -> init_table(T, F, []).

-spec init_table(term(), term(), term()) -> ok | {error, term()}.
init_table(T, F, Options) when is_function(F) ->
    case [O || O <- case is_list(Options) of true -> Options; false -> [Options] end, O =/= {format, term}] of
        [] -> keypos(T), filled(T, read(F(read), F, []));
        _ -> prim:raw(exit, {refused, dets, init_table, 3})
    end;
init_table(_, _, _) -> error(badarg).

-spec read(term(), term(), [list()]) -> list().
read(end_of_input, _, Ls) -> lists:append(lists:reverse(Ls));
read({L, F}, _, Ls) when is_list(L), is_function(F) -> read(F(read), F, [L | Ls]);
read(_, _, _) -> prim:raw(exit, {refused, dets, init_table, 2}).

%% ---- a table as a handle of qlc

-spec table(term()) -> {qlc_handle, term()}.
table(T) -> table(T, []).

-spec table(term(), term()) -> {qlc_handle, term()}.
table(T, Options) when is_list(Options) ->
    Walk = given(traverse, Options, select),
    N = given(n_objects, Options, default),
    (N =:= default orelse is_integer(N) andalso N >= 1) andalso is_walk(Walk) orelse error(badarg),
    {qlc_handle, {table, fun() -> case Walk of {select, Ms} -> select(T, Ms); _ -> objects(T) end end}};
table(T, Option) -> table(T, [Option]).

-spec is_walk(term()) -> boolean().
is_walk({select, _}) -> true;
is_walk(Walk) -> Walk =:= select orelse Walk =:= first_next.
