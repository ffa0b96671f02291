%% Handles of qlc, for tables, lists, and what is joined or sorted of them, after OTP 25: each is evaluated in one
%% piece, by a cursor when it is asked first. Of a query by list comprehension the generators are evaluated in their
%% order, each once. Tables by functions of one's own are refused.
-module(qlc).
-compile([export_all, nowarn_export_all]).
-spec q(term()) -> {qlc_handle, term()}.
q(F) -> q(F, []).

-spec q(term(), term()) -> {qlc_handle, term()}.
q(F, Options) when is_function(F, 0) ->
    All = case is_list(Options) of true -> Options; false -> [Options] end,
    lists:all(fun is_of_query/1, All) orelse error(badarg),
    {qlc_handle, {query, F, lists:member(unique, All) orelse lists:member({unique, true}, All)}};
q({qlc_lc, _, _}, _) -> prim:raw(exit, {refused, qlc, q, 2});
q(_, _) -> error(badarg).

-spec is_of_query(term()) -> boolean().
is_of_query({max_lookup, N}) -> N =:= infinity orelse is_integer(N) andalso N >= 0;
is_of_query({join, How}) -> lists:member(How, [any, nested_loop, merge, lookup]);
is_of_query({lookup, How}) -> is_boolean(How) orelse How =:= any;
is_of_query({cache, How}) -> is_boolean(How) orelse lists:member(How, [list, ets, no]);
is_of_query(Flag) -> is_flag(Flag, [unique, cache]).

%% the answers of a generator
-spec generated(term()) -> list().
generated(Q) -> is_handle(Q) orelse error(badarg), answers(Q).

-spec e(term()) -> list().
e(Q) -> eval(Q, []).

-spec e(term(), term()) -> list().
e(Q, Options) -> eval(Q, Options).

-spec eval(term()) -> list().
eval(Q) -> eval(Q, []).

-spec eval(term(), term()) -> list().
eval(Q, Options) ->
    Unique = flags(Options, [unique_all, cache_all]),
    is_handle(Q) orelse error(badarg),
    once(Unique, answers(Q)).

-spec fold(term(), term(), term()) -> term().
fold(F, A, Q) -> lists:foldl(F, A, eval(Q, [])).

-spec fold(term(), term(), term(), term()) -> term().
fold(F, A, Q, Options) -> lists:foldl(F, A, eval(Q, Options)).

%% ---- cursors: a process each, which has the answers that nobody was given yet, or how they are found

-spec cursor(term()) -> {qlc_cursor, {pid(), pid()}}.
cursor(Q) -> cursor(Q, []).

-spec cursor(term(), term()) -> {qlc_cursor, {pid(), pid()}}.
cursor(Q, Options) ->
    All = case is_list(Options) of true -> Options; false -> [Options] end,
    Unique = flags([O || O <- All, not is_of_cursor(O)], [unique_all, cache_all]),
    is_handle(Q) orelse error(badarg),
    Owner = self(),
    Find = fun() -> once(Unique, answers(Q)) end,
    {qlc_cursor, {spawn(fun() -> gives(monitor(process, Owner), Owner, Find) end), Owner}}.

-spec is_of_cursor(term()) -> boolean().
is_of_cursor({max_list_size, N}) -> is_integer(N) andalso N >= 0;
is_of_cursor({spawn_options, L}) -> is_list(L) orelse L =:= default;
is_of_cursor({tmpdir, Folder}) -> is_list(Folder) orelse is_binary(Folder) orelse is_atom(Folder);
is_of_cursor({tmpdir_usage, How}) -> lists:member(How, [allowed, not_allowed, info_msg, warning_msg, error_msg]);
is_of_cursor(_) -> false.

-spec gives(reference(), pid(), list() | fun(() -> list())) -> term().
gives(M, Owner, Answers) ->
    receive
        {Owner, _, stop} -> ok;
        {Owner, R, N} -> found(M, Owner, R, N, Answers);
        {'DOWN', M, process, Owner, _} -> ok
    end.

-spec found(reference(), pid(), reference(), all | pos_integer(), list() | fun(() -> list())) -> term().
found(M, Owner, R, N, Find) when is_function(Find) ->
    try Find() of
        Answers -> found(M, Owner, R, N, Answers)
    catch Class:Why -> Owner ! {R, Class, Why}
    end;
found(M, Owner, R, N, Answers) ->
    {Given, Rest} = case N of
        _ when is_integer(N), N < length(Answers) -> lists:split(N, Answers);
        _ -> {Answers, []}
    end,
    Owner ! {R, Given},
    gives(M, Owner, Rest).

-spec next_answers(term()) -> list().
next_answers(C) -> next_answers(C, 10).

-spec next_answers(term(), term()) -> list().
next_answers({qlc_cursor, {_, Owner}}, _) when Owner =/= self() -> error(not_cursor_owner);
next_answers({qlc_cursor, {P, _}}, all_remaining) -> asked(P, all);
next_answers({qlc_cursor, {P, _}}, N) when is_integer(N), N > 0 -> asked(P, N);
next_answers(_, _) -> error(badarg).

-spec asked(pid(), all | pos_integer()) -> list().
asked(P, N) ->
    R = monitor(process, P),
    P ! {self(), R, N},
    receive
        {R, Answers} -> demonitor(R, [flush]), Answers;
        {R, Class, Why} -> demonitor(R, [flush]), erlang:raise(Class, Why, []);
        {'DOWN', R, process, _, _} -> error({qlc_cursor_pid_no_longer_exists, P})
    end.

-spec delete_cursor(term()) -> ok.
delete_cursor({qlc_cursor, {_, Owner}}) when Owner =/= self() -> error(not_cursor_owner);
delete_cursor({qlc_cursor, {P, _}}) ->
    R = monitor(process, P),
    P ! {self(), R, stop},
    receive {'DOWN', R, process, _, _} -> ok end;
delete_cursor(_) -> error(badarg).

%% ---- what handles are made of

-spec append(list()) -> {qlc_handle, term()}.
append(Qs) -> lists:all(fun is_handle/1, Qs) orelse error(badarg), {qlc_handle, {append, Qs}}.

-spec append(term(), term()) -> {qlc_handle, term()}.
append(P, Q) -> append([P, Q]).

-spec sort(term()) -> {qlc_handle, term()}.
sort(Q) -> sort(Q, []).

-spec sort(term(), term()) -> {qlc_handle, term()}.
sort(Q, Options) -> sorted(Q, sort, Options).

-spec keysort(term(), term()) -> {qlc_handle, term()}.
keysort(Pos, Q) -> keysort(Pos, Q, []).

-spec keysort(term(), term(), term()) -> {qlc_handle, term()}.
keysort(Pos, Q, Options) when is_integer(Pos), Pos > 0 -> sorted(Q, Pos, Options);
keysort(_, _, _) -> error(badarg).

-spec sorted(term(), sort | pos_integer(), term()) -> {qlc_handle, term()}.
sorted(Q, How, Options) ->
    All = case is_list(Options) of true -> Options; false -> [Options] end,
    Orders = [O || {order, O} <- All],
    Flags = flags([O || O <- All, not is_tuple(O) orelse element(1, O) =/= order], [unique]),
    is_handle(Q) andalso lists:all(fun(O) -> O =:= ascending orelse O =:= descending end, Orders) orelse error(badarg),
    {qlc_handle, {sort, Q, How, hd(Orders ++ [ascending]), Flags}}.

%% Whether the first of some flags is set.
-spec flags(term(), [atom()]) -> boolean().
flags(Options, [Flag | Others]) when is_list(Options) ->
    lists:all(fun(O) -> is_flag(O, [Flag | Others]) end, Options) orelse error(badarg),
    lists:member(Flag, Options) orelse lists:member({Flag, true}, Options);
flags(Option, Flags) -> flags([Option], Flags).

-spec is_flag(term(), [atom()]) -> boolean().
is_flag({Flag, On}, Flags) -> is_boolean(On) andalso lists:member(Flag, Flags);
is_flag(Flag, Flags) -> lists:member(Flag, Flags).

-spec is_handle(term()) -> boolean().
is_handle({qlc_handle, _}) -> true;
is_handle(Q) -> is_list(Q).

-spec answers(term()) -> list().
answers({qlc_handle, {table, F}}) -> F();
answers({qlc_handle, {query, F, Unique}}) -> once(Unique, F());
answers({qlc_handle, {append, Qs}}) -> lists:append([answers(Q) || Q <- Qs]);
answers({qlc_handle, {sort, Q, How, Order, Unique}}) ->
    L = case How of
        sort when Unique -> lists:usort(answers(Q));
        sort -> lists:sort(answers(Q));
        Pos when Unique -> lists:ukeysort(Pos, answers(Q));
        Pos -> lists:keysort(Pos, answers(Q))
    end,
    case Order of ascending -> L; descending -> downwards(How, L) end;
answers(L) -> L.

%% what is equal keeps its order
-spec downwards(sort | pos_integer(), list()) -> list().
downwards(sort, L) -> lists:reverse(L);
downwards(Pos, L) -> lists:reverse(lists:keysort(Pos, lists:reverse(L))).

-spec once(boolean(), list()) -> list().
once(false, L) -> L;
once(true, L) -> once_each(L, []).

-spec once_each(list(), list()) -> list().
once_each([], Seen) -> lists:reverse(Seen);
once_each([X | Xs], Seen) ->
    case lists:member(X, Seen) of
        true -> once_each(Xs, Seen);
        false -> once_each(Xs, [X | Seen])
    end.
