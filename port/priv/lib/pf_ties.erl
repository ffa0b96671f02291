%% Links, monitors and the flag trap_exit, which the profile shows to nobody: one process keeps what each process does
%% to its own. It is asked where nobody else can go, so all that was done is there, and who has ended is gone.
-module(pf_ties).
-compile([export_all, nowarn_export_all]).
-spec start() -> term().
start() -> prim:raw(register, 'port@ties', spawn(fun() -> serve([], [], [], []) end)).

-spec ask(atom(), pid()) -> term().
ask(What, P) -> R = make_ref(), 'port@ties' ! {What, P, self(), R}, receive {R, V} -> V end.

-spec links(pid()) -> list().
links(P) -> [other(P, L) || L <- ask(links, P), is_on(L)].

-spec other(pid(), tuple()) -> pid().
other(P, {P, Q, _, _, _}) -> Q;
other(_, {P, _, _, _, _}) -> P.

%% Where one links and the other unlinks, the order of their signals says what is: that isn't known here.
-spec is_on(tuple()) -> boolean().
is_on({_, _, Born, none, none}) -> Born =:= on;
is_on({_, _, _, A, none}) -> A =:= on;
is_on({_, _, _, none, B}) -> B =:= on;
is_on({_, _, _, A, A}) -> A =:= on;
is_on(_) -> prim:raw(exit, {refused, erlang, process_info, 2}).

%% ---- what is done, by who does it

-spec link(term()) -> true.
link(P) when P =:= self() -> true;
link(P) when is_pid(P) -> prim:raw(link, P), 'port@ties' ! {link, self(), P, on}, true;
link(_) -> error(badarg).

-spec unlink(term()) -> true.
unlink(P) when is_pid(P) -> prim:raw(unlink, P), 'port@ties' ! {link, self(), P, off}, true;
unlink(_) -> error(badarg).

-spec trap(term()) -> term().
trap(Flag) -> Old = prim:raw(process_flag, trap_exit, Flag), 'port@ties' ! {trap, self(), Flag}, Old.

-spec demonitor(reference()) -> true.
demonitor(R) -> prim:raw(demonitor, R), 'port@ties' ! {demonitor, R}, true.

-spec demonitor(reference(), list()) -> true.
demonitor(R, [flush]) -> prim:raw(demonitor, R, [flush]), 'port@ties' ! {demonitor, R}, true.

%% a monitor of a name has it in the place of the pid
-spec monitored(reference(), pid(), term()) -> reference().
monitored(R, P, Object) -> 'port@ties' ! {monitor, R, self(), P, Object}, R.

-spec spawned(pid()) -> pid().
spawned(P) -> 'port@ties' ! {born, self(), P}, P.

-spec watched({pid(), reference()}) -> {pid(), reference()}.
watched({P, R}) -> monitored(R, P, P), {P, R}.

%% ---- the service: Ls are {One, Other, Born, what One did last, what Other did last}, Ms {R, Who, Pid, Object}, Ts who
%% traps exits, and Ws who is watched, so that who has ended is left out

-spec serve(Ls :: list(), Ms :: list(), Ts :: list(), Ws :: list()) -> no_return().
serve(Ls, Ms, Ts, Ws) ->
    receive
        {link, P, Q, Done} -> serve(done(P, Q, Done, Ls), Ms, Ts, watched(P, watched(Q, Ws)));
        {born, P, Q} -> serve(born(P, Q, Ls), Ms, Ts, watched(P, watched(Q, Ws)));
        {monitor, R, P, Q, Object} -> serve(Ls, [{R, P, Q, Object} | Ms], Ts, watched(P, watched(Q, Ws)));
        {demonitor, R} -> serve(Ls, lists:keydelete(R, 1, Ms), Ts, Ws);
        {trap, P, true} -> serve(Ls, Ms, [P | lists:delete(P, Ts)], Ws);
        {trap, P, _} -> serve(Ls, Ms, lists:delete(P, Ts), Ws);
        {'DOWN', _, process, P, _} ->
            Left = without(P, 1, without(P, 2, Ls)),
            serve(Left, without(P, 2, without(P, 3, Ms)), lists:delete(P, Ts), lists:delete(P, Ws));
        {What, P, From, R} -> From ! {R, known(What, P, Ls, Ms, Ts)}, serve(Ls, Ms, Ts, Ws)
    end.

-spec watched(pid(), list()) -> list().
watched(P, Ws) ->
    case lists:member(P, Ws) of
        true -> Ws;
        false -> prim:raw(monitor, process, P), [P | Ws]
    end.

-spec known(atom(), pid(), list(), list(), list()) -> term().
known(links, P, Ls, _, _) -> [L || L <- Ls, element(1, L) =:= P orelse element(2, L) =:= P];
known(monitors, P, _, Ms, _) -> [{process, Object} || {_, W, _, Object} <- Ms, W =:= P];
known(monitored_by, P, _, Ms, _) -> [W || {_, W, Q, _} <- Ms, Q =:= P, not is_service(W)];
known(trap_exit, P, _, _, Ts) -> lists:member(P, Ts).

-spec without(pid(), pos_integer(), list()) -> list().
without(P, I, L) -> [T || T <- L, element(I, T) =/= P].

%% a process is linked from its beginning on, whenever that is reported
-spec born(pid(), pid(), list()) -> list().
born(P, Q, Ls) ->
    {Found, _, A, B} = pair(P, Q, Ls),
    [{P, Q, on, A, B} | Ls -- Found].

-spec done(pid(), pid(), on | off, list()) -> list().
done(P, Q, Done, Ls) ->
    {Found, Born, _, B} = pair(P, Q, Ls),
    [{P, Q, Born, Done, B} | Ls -- Found].

%% what is kept of two processes: how they were born, and what the first and the second did last
-spec pair(pid(), pid(), list()) -> {list(), term(), term(), term()}.
pair(P, Q, Ls) ->
    case [L || {X, Y, _, _, _} = L <- Ls, X =:= P andalso Y =:= Q orelse X =:= Q andalso Y =:= P] of
        [{P, Q, Born, A, B}] -> {[{P, Q, Born, A, B}], Born, A, B};
        [{Q, P, Born, B, A}] -> {[{Q, P, Born, B, A}], Born, A, B};
        [] -> {[], off, none, none}
    end.

-spec is_service(pid()) -> boolean().
is_service(P) ->
    Names = ['port@ets', 'port@names', 'port@clock', 'port@cells', 'port@dictionary', 'port@leader'],
    lists:any(fun(N) -> whereis(N) =:= P end, Names).
