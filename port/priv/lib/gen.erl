%% What behaviours are made of, after OTP 25: processes that are started under a name, called, answered and stopped, and
%% requests that are answered later. Without several nodes, and without what is for debugging.
-module(gen).
-compile([export_all, nowarn_export_all]).
-include("pf_late.hrl").
-spec start(module(), term(), term(), term(), term()) -> term().
start(GenMod, Link, Mod, Args, Opts) -> begun(GenMod, Link, none, Mod, Args, Opts).

-spec start(module(), term(), term(), term(), term(), term()) -> term().
start(GenMod, Link, Name, Mod, Args, Opts) ->
    case gen_server:named(Name) of
        P when is_pid(P) -> {error, {already_started, P}};
        _ -> begun(GenMod, Link, Name, Mod, Args, Opts)
    end.

-spec begun(module(), term(), term(), term(), term(), term()) -> term().
begun(GenMod, link, Name, Mod, Args, Opts) ->
    Me = self(),
    proc_lib:linked(process(Name, Mod, Opts, link, fun() -> init_it(GenMod, Me, Me, Name, Mod, Args, Opts) end), timeout(Opts));
begun(GenMod, monitor, Name, Mod, Args, Opts) ->
    Me = self(),
    of_monitor(proc_lib:monitored(process(Name, Mod, Opts, monitor, fun() -> init_it(GenMod, Me, Me, Name, Mod, Args, Opts) end), timeout(Opts)));
begun(GenMod, _, Name, Mod, Args, Opts) ->
    Me = self(),
    proc_lib:watched(process(Name, Mod, Opts, monitor, fun() -> init_it(GenMod, Me, self, Name, Mod, Args, Opts) end), timeout(Opts)).

-spec process(term(), term(), list(), link | monitor, fun(() -> term())) -> term().
process(_, Mod, Opts, Tie, Init) ->
    Ps = proc_lib:parents(),
    More = case lists:keyfind(spawn_opt, 1, Opts) of {_, L} -> L; false -> [] end,
    Tie =:= link andalso proc_lib:unmonitored(More),
    proc_lib:with_options(fun() -> proc_lib:born(Ps, {Mod, init, 1}), Init() end, [Tie | More]).

-spec of_monitor({term(), reference()}) -> term().
of_monitor({{ok, P}, R}) -> {ok, {P, R}};
of_monitor({Error, R}) -> receive {'DOWN', R, process, _, _} -> Error end.

-spec timeout(list()) -> term().
timeout(Opts) -> case lists:keyfind(timeout, 1, Opts) of {_, T} -> T; false -> infinity end.

-spec init_it(module(), pid(), term(), term(), term(), term()) -> term().
init_it(GenMod, Starter, Parent, Mod, Args, Opts) -> GenMod:init_it(Starter, Parent, self(), Mod, Args, Opts).

-spec init_it(module(), pid(), term(), term(), term(), term(), term()) -> term().
init_it(GenMod, Starter, Parent, none, Mod, Args, Opts) -> GenMod:init_it(Starter, Parent, self(), Mod, Args, Opts);
init_it(GenMod, Starter, Parent, Name, Mod, Args, Opts) ->
    case gen_server:take_name(Name) of
        true -> GenMod:init_it(Starter, Parent, Name, Mod, Args, Opts);
        {false, P} -> proc_lib:init_ack(Starter, {error, {already_started, P}})
    end.

-spec call(term(), term(), term()) -> {ok, term()}.
call(S, Label, Request) -> call(S, Label, Request, 5000).

-spec call(term(), term(), term(), term()) -> {ok, term()}.
call(S, Label, Request, T) when T =:= infinity; is_integer(T), T >= 0 ->
    case process_of(S) of
        P when P =:= self() -> exit(calling_self);
        P ->
            R = monitor(process, P),
            P ! {Label, {self(), ?TAG(R)}, Request},
            answer(R, T)
    end.

%% who a name means; there is one node
-spec process_of(term()) -> pid().
process_of(P) when is_pid(P) -> P;
process_of(N) when is_atom(N) -> case whereis(N) of undefined -> exit(noproc); P -> P end;
process_of({global, N}) -> case global:whereis_name(N) of undefined -> exit(noproc); P -> P end;
process_of({via, M, N}) -> case M:whereis_name(N) of undefined -> exit(noproc); P -> P end;
process_of({N, Node}) when Node =:= node() -> process_of(N);
process_of({_, Node}) when is_atom(Node) -> exit({nodedown, Node}).

-spec answer(term(), term()) -> {ok, term()}.
answer(R, infinity) -> receive {?TAG(R), V} -> demonitor(R, [flush]), {ok, V}; {'DOWN', R, _, _, Why} -> exit(Why) end;
answer(R, T) ->
    receive
        {?TAG(R), V} -> demonitor(R, [flush]), {ok, V};
        {'DOWN', R, _, _, Why} -> exit(Why)
    after T -> demonitor(R, [flush]), exit(timeout)
    end.

%% A request is the reference of a monitor. A collection is a list of {Request, Label}. A receive of the profile compares
%% with what it names, of which it has at
%% most 32 here; of more, it takes what was asked between the first and the last of them.
-spec send_request(term(), term(), term()) -> reference().
send_request(S, Label, Request) ->
    case gen_server:where(S) of
        undefined ->
            R = make_ref(),
            self() ! {'DOWN', R, process, S, noproc},
            R;
        P ->
            R = monitor(process, P),
            P ! {Label, {self(), R}, Request},
            R
    end.

-spec send_request(term(), term(), term(), term(), list()) -> list().
send_request(S, Label, Request, As, Requests) -> reqids_add(send_request(S, Label, Request), As, Requests).

-spec reqids_new() -> list().
reqids_new() -> [].

-spec reqids_size(list()) -> non_neg_integer().
reqids_size(Requests) when is_list(Requests) -> length(Requests);
reqids_size(_) -> error(badarg).

-spec reqids_add(reference(), term(), list()) -> list().
reqids_add(R, Label, Requests) when is_reference(R), is_list(Requests) ->
    case lists:keymember(R, 1, Requests) of
        true -> error(badarg);
        false -> [{R, Label} | Requests]
    end;
reqids_add(_, _, _) -> error(badarg).

-spec reqids_to_list(list()) -> list().
reqids_to_list(Requests) when is_list(Requests) -> Requests;
reqids_to_list(_) -> error(badarg).

%% after a time the request is still open
-spec wait_response(term(), term()) -> term().
wait_response(R, T) when is_reference(R) -> of_one(one(R, within(T)));
wait_response(_, _) -> error(badarg).

%% after a time it is abandoned
-spec receive_response(term(), term()) -> term().
receive_response(R, T) when is_reference(R) ->
    case of_one(one(R, within(T))) of
        timeout -> demonitor(R, [flush]), timeout;
        Answer -> Answer
    end;
receive_response(_, _) -> error(badarg).

-spec wait_response(list(), term(), boolean()) -> term().
wait_response([], T, Delete) when is_boolean(Delete) -> _ = within(T), no_request;
wait_response(Requests, T, Delete) when is_list(Requests), is_boolean(Delete) -> of_several(got([R || {R, _} <- Requests], within(T)), Requests, Delete).

-spec receive_response(list(), term(), boolean()) -> term().
receive_response([], T, Delete) when is_boolean(Delete) -> _ = within(T), no_request;
receive_response(Requests, T, Delete) when is_list(Requests), is_boolean(Delete) ->
    case of_several(got([R || {R, _} <- Requests], within(T)), Requests, Delete) of
        timeout -> [demonitor(R, [flush]) || {R, _} <- Requests], timeout;
        Answer -> Answer
    end.

-spec check_response(term(), term()) -> term().
check_response({R, V}, R) when is_reference(R) -> demonitor(R, [flush]), {reply, V};
check_response({'DOWN', R, process, P, Why}, R) when is_reference(R) -> {error, {Why, P}};
check_response(_, R) when is_reference(R) -> no_reply;
check_response(_, _) -> error(badarg).

-spec check_response(term(), list(), boolean()) -> term().
check_response(_, [], Delete) when is_boolean(Delete) -> no_request;
check_response({R, V}, Requests, Delete) when is_reference(R), is_list(Requests), is_boolean(Delete) ->
    case lists:keymember(R, 1, Requests) of
        true -> demonitor(R, [flush]), of_several({reply, R, V}, Requests, Delete);
        false -> no_reply
    end;
check_response({'DOWN', R, process, P, Why}, Requests, Delete) when is_list(Requests), is_boolean(Delete) ->
    case lists:keymember(R, 1, Requests) of
        true -> of_several({down, R, P, Why}, Requests, Delete);
        false -> no_reply
    end;
check_response(_, Requests, Delete) when is_list(Requests), is_boolean(Delete) -> no_reply.

-spec within(term()) -> term().
within(infinity) -> infinity;
within({abs, At}) when is_integer(At) -> at_most(max(0, At - erlang:monotonic_time(millisecond)));
within(T) when is_integer(T), T >= 0 -> at_most(T);
within(_) -> error(badarg).

-spec at_most(non_neg_integer()) -> non_neg_integer().
at_most(T) when T =< 4294967295 -> T;
at_most(_) -> error(badarg).

-spec of_one(term()) -> term().
of_one({reply, _, V}) -> {reply, V};
of_one({down, _, P, Why}) -> {error, {Why, P}};
of_one(timeout) -> timeout.

-spec of_several(term(), list(), boolean()) -> term().
of_several(timeout, _, _) -> timeout;
of_several(Got, Requests, Delete) ->
    {_, Label} = lists:keyfind(element(2, Got), 1, Requests),
    Left = case Delete of true -> lists:keydelete(element(2, Got), 1, Requests); false -> Requests end,
    {of_one(Got), Label, Left}.

%% the first answer to one of these
-spec got([reference()], term()) -> term().
got([R], T) -> one(R, T);
got([A, B | Rs], T) when length(Rs) =< 6 -> several(A, filled(B, Rs, 7), T);
got([A, B | Rs], T) when length(Rs) =< 30 -> dozens(A, filled(B, Rs, 31), T);
got(Rs, T) -> of_these(many(lists:min(Rs), lists:max(Rs), T), Rs).

%% an answer to another can't be put back where it stood
-spec of_these(term(), [reference()]) -> term().
of_these(timeout, _) -> timeout;
of_these(Got, Rs) ->
    case {lists:member(element(2, Got), Rs), Got} of
        {true, {reply, R, V}} -> answered(R, V);
        {true, _} -> Got;
        {false, _} -> prim:raw(exit, {refused, gen, receive_response, 3})
    end.

-spec one(reference(), term()) -> term().
one(R, infinity) -> receive {R, V} -> answered(R, V); {'DOWN', R, process, P, Why} -> {down, R, P, Why} end;
one(R, T) ->
    receive
        {R, V} -> answered(R, V);
        {'DOWN', R, process, P, Why} -> {down, R, P, Why}
    after T -> timeout
    end.

-spec answered(reference(), term()) -> term().
answered(R, V) -> demonitor(R, [flush]), {reply, R, V}.

%% so many, of which the first takes the place of those that aren't there
-spec filled(reference(), [reference()], pos_integer()) -> [reference()].
filled(B, Rs, N) -> [B | Rs] ++ lists:duplicate(N - 1 - length(Rs), B).

%% The first answer of some, by a guard that names them.
-define(GOT(Among), {R, V} when Among -> answered(R, V); {'DOWN', R, process, P, Why} when Among -> {down, R, P, Why}).
-define(EIGHT, R =:= A; R =:= B; R =:= C; R =:= D; R =:= E; R =:= F; R =:= G; R =:= H).
-define(DOZENS, R =:= A; R =:= A1; R =:= A2; R =:= A3; R =:= A4; R =:= A5; R =:= A6; R =:= A7; R =:= A8; R =:= A9;
        R =:= A10; R =:= A11; R =:= A12; R =:= A13; R =:= A14; R =:= A15; R =:= A16; R =:= A17;
        R =:= A18; R =:= A19; R =:= A20; R =:= A21; R =:= A22; R =:= A23; R =:= A24; R =:= A25;
        R =:= A26; R =:= A27; R =:= A28; R =:= A29; R =:= A30; R =:= A31).
-define(ALL, A1, A2, A3, A4, A5, A6, A7, A8, A9, A10, A11, A12, A13, A14, A15, A16, A17, A18, A19, A20, A21,
        A22, A23, A24, A25, A26, A27, A28, A29, A30, A31).

-spec several(reference(), [reference()], term()) -> term().
several(A, [B, C, D, E, F, G, H], infinity) -> receive ?GOT(?EIGHT) end;
several(A, [B, C, D, E, F, G, H], T) -> receive ?GOT(?EIGHT) after T -> timeout end.

-spec dozens(reference(), [reference()], term()) -> term().
dozens(A, [?ALL], infinity) -> receive ?GOT(?DOZENS) end;
dozens(A, [?ALL], T) -> receive ?GOT(?DOZENS) after T -> timeout end.

%% The first answer to what was asked between these, of whomever.
-spec many(reference(), reference(), term()) -> term().
many(A, Z, infinity) ->
    receive
        {R, V} when is_reference(R), R >= A, R =< Z -> {reply, R, V};
        {'DOWN', R, process, P, Why} when R >= A, R =< Z -> {down, R, P, Why}
    end;
many(A, Z, T) ->
    receive
        {R, V} when is_reference(R), R >= A, R =< Z -> {reply, R, V};
        {'DOWN', R, process, P, Why} when R >= A, R =< Z -> {down, R, P, Why}
    after T -> timeout
    end.

-spec reply(term(), term()) -> ok.
reply({P, R}, V) -> P ! {R, V}, ok.

-spec stop(term()) -> ok.
stop(S) -> gen_server:stop(process_of(S)).

-spec stop(term(), term(), term()) -> ok.
stop(S, Reason, T) when T =:= infinity; is_integer(T), T >= 0 -> gen_server:stop(process_of(S), Reason, T).

-spec name(term()) -> term().
name({local, Name}) -> Name;
name({global, Name}) -> Name;
name({via, _, Name}) -> Name;
name(P) when is_pid(P) -> P.

%% the name that a process has
-spec get_proc_name(term()) -> term().
get_proc_name(P) when is_pid(P) -> P;
get_proc_name({local, N}) -> its(whereis(N), N, process_not_registered);
get_proc_name({global, N}) -> its(global:whereis_name(N), N, process_not_registered_globally);
get_proc_name({via, M, N}) -> its(M:whereis_name(N), N, {process_not_registered_via, M}).

-spec its(term(), term(), term()) -> term().
its(P, N, _) when P =:= self() -> N;
its(_, _, Why) -> exit(Why).

-spec get_parent() -> pid().
get_parent() ->
    case get('$ancestors') of
        [P | _] when is_pid(P) -> P;
        [N | _] when is_atom(N) -> parent(whereis(N));
        _ -> exit(process_was_not_started_by_proc_lib)
    end.

-spec parent(pid() | undefined) -> pid().
parent(undefined) -> exit(could_not_find_registered_name);
parent(P) -> P.

-spec unregister_name(term()) -> ok.
unregister_name(P) when is_pid(P) -> ok;
unregister_name({local, N}) -> try unregister(N) of _ -> ok catch _:_ -> ok end;
unregister_name({global, N}) -> _ = global:unregister_name(N), ok;
unregister_name({via, M, N}) -> _ = M:unregister_name(N), ok.

-spec debug_options(term(), list()) -> [].
debug_options(_, _) -> [].

-spec hibernate_after(list()) -> term().
hibernate_after(Opts) -> case lists:keyfind(hibernate_after, 1, Opts) of {_, T} -> T; false -> infinity end.

%% for what is logged or printed alone
-spec format_status(module(), term(), term(), term()) -> term().
format_status(_, _, Status, _) -> Status.

-spec format_status_header(term(), term()) -> term().
format_status_header(Text, N) when is_atom(N) -> lists:concat([Text, " ", N]);
format_status_header(Text, Name) when not is_pid(Name) -> {Text, Name};
format_status_header(Text, _) -> lists:concat([Text, " <pid>"]).
