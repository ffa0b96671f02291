%% Supervisors and state machines: results that do not depend on the schedule.
-module(facts_of_supervisors).
-export([main/0, init/1, child/2, callback_mode/0, handle_event/4]).
init({statem, D}) -> {ok, idle, D};
init({Strategy, Intensity, Boss, Ids}) ->
    {ok, {#{strategy => Strategy, intensity => Intensity, period => 1000},
          [#{id => I, start => {?MODULE, child, [Boss, I]}, restart => R, shutdown => infinity} || {I, R} <- Ids]}};
init({simple, Boss}) ->
    {ok, {{simple_one_for_one, 3, 1000}, [{x, {?MODULE, child, [Boss]}, temporary, infinity, worker, [?MODULE]}]}}.
child(Boss, I) ->
    {ok, spawn_link(fun() -> process_flag(trap_exit, true), Boss ! {up, I, self()}, loop(Boss, I) end)}.
loop(Boss, I) ->
    receive
        {stop, R} -> exit(R);
        {'EXIT', _, R} -> Boss ! {down, I, R}, exit(R)
    end.
up(I) -> receive {up, I, P} -> P end.
downs(0) -> [];
downs(N) -> receive {down, I, R} -> [{I, R} | downs(N - 1)] end.
kids(S) -> [{I, is_pid(P), T} || {I, P, T, _} <- supervisor:which_children(S)].
gone(P) -> R = monitor(process, P), receive {'DOWN', R, process, P, Why} -> Why end.

callback_mode() -> handle_event_function.
handle_event({call, F}, get, S, D) -> {keep_state, D, [{reply, F, {S, lists:reverse(D)}}]};
handle_event(cast, {go, S}, _, D) -> {next_state, S, [S | D]};
handle_event(cast, later, idle, _) -> {keep_state_and_data, [postpone]};
handle_event(cast, later, S, D) -> {keep_state, [{late, S} | D]};
handle_event(cast, twice, _, D) -> {keep_state, D, [{next_event, internal, one}, {next_event, internal, two}]};
handle_event(internal, X, _, D) -> {keep_state, [X | D]};
handle_event(cast, timer, _, D) -> {keep_state, D, [{{timeout, a}, 5, fired}]};
handle_event({timeout, a}, fired, _, [B | _] = D) when is_pid(B) -> B ! fired, {keep_state, D};
handle_event({timeout, a}, fired, _, D) -> self() ! told, {keep_state, [fired | D]};
handle_event(info, X, _, D) -> {keep_state, [X | D]};
handle_event({call, F}, stop, _, D) -> {stop_and_reply, normal, [{reply, F, bye}], D}.

main() ->
    process_flag(trap_exit, true),
    Me = self(),
    {ok, S} = supervisor:start_link(?MODULE, {one_for_one, 2, Me, [{a, permanent}, {b, transient}, {c, temporary}]}),
    A = up(a), B = up(b), C = up(c),
    R1 = kids(S),
    C ! {stop, oops}, gone(C), A ! {stop, oops}, A2 = up(a),
    R2 = kids(S),
    B ! {stop, normal}, gone(B),
    R3 = supervisor:terminate_child(S, a), R4 = downs(1),
    R5 = [supervisor:restart_child(S, nix), supervisor:delete_child(S, a), supervisor:delete_child(S, a)],
    R6 = {is_pid(A2), supervisor:start_child(S, #{id => d, start => {?MODULE, child, [Me, d]}, shutdown => infinity}) =:= {ok, up(d)}},
    R7 = lists:keyfind(active, 1, supervisor:count_children(S)),
    gen_server:stop(S, shutdown, infinity), R8 = downs(1), receive {'EXIT', S, R9} -> ok end,
    {ok, T} = supervisor:start_link(?MODULE, {rest_for_one, 1, Me, [{a, permanent}, {b, permanent}, {c, permanent}]}),
    _ = up(a), B3 = up(b), _ = up(c),
    B3 ! {stop, oops}, R10 = downs(1), B4 = up(b), C4 = up(c),
    R11 = kids(T),
    C4 ! {stop, again}, receive {'EXIT', T, R12} -> ok end, R13 = downs(2), gone(B4),
    {ok, U} = supervisor:start_link(?MODULE, {one_for_all, 5, Me, [{a, permanent}, {b, permanent}]}),
    A5 = up(a), _ = up(b), A5 ! {stop, oops}, R14 = downs(1), _ = up(a), _ = up(b), R15 = kids(U),
    exit(U, shutdown), receive {'EXIT', U, R16} -> ok end, R17 = downs(2),
    {ok, V} = supervisor:start_link(?MODULE, {simple, Me}),
    {ok, X} = supervisor:start_child(V, [x1]), {ok, _} = supervisor:start_child(V, [x2]), X = up(x1), _ = up(x2),
    R18 = [kids(V), supervisor:terminate_child(V, X), downs(1)], R19 = supervisor:count_children(V),
    {ok, M} = gen_statem:start_link(?MODULE, {statem, []}, []),
    gen_statem:cast(M, later), gen_statem:cast(M, {go, busy}), gen_statem:cast(M, twice), M ! hello,
    R20 = gen_statem:call(M, get),
    R21 = gen_statem:call(M, stop), receive {'EXIT', M, R22} -> ok end,
    {ok, N} = gen_statem:start_link(?MODULE, {statem, [Me]}, []),
    gen_statem:cast(N, timer), R23 = receive fired -> fired end,
    [{1, R1}, {2, R2}, {3, R3}, {4, R4}, {5, R5}, {6, R6}, {7, R7}, {8, R8}, {9, R9}, {10, R10}, {11, R11}, {12, R12}, {13, R13}, {14, R14},
     {15, R15}, {16, R16}, {17, R17}, {18, R18}, {19, R19}, {20, R20}, {21, R21}, {22, R22}, {23, R23}].
