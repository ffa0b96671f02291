%% Event managers and their handlers, and what sys asks of a process of one's own: each is the same on erl and in every run of the tool.
-module(facts_of_events).
-export([main/0, init/1, handle_event/2, handle_call/2, handle_info/2, terminate/2]).
-export([loop/1, system_continue/3, system_terminate/4, system_get_state/1, system_replace_state/2]).
tried(F) -> try {ok, F()} catch C:R -> {C, tidy(R)} end.
tidy({R, [{_,_,_,_}|_]}) -> {R, st};
tidy({R, []}) -> {R, st};
tidy({R, {M, F, [P | As]}}) when is_pid(P) -> {tidy(R), {M, F, As}};
tidy({error, R}) -> {error, tidy(R)};
tidy({'EXIT', R}) -> {'EXIT', tidy(R)};
tidy(R) -> R.
init({fails, W}) -> exit(W);
init(bad) -> what;
init({{swapped, B, N}, Old}) -> {ok, {B, N, Old}};
init({swap_, Old}) -> {ok, Old};
init({B, N}) -> {ok, {B, N, []}, hibernate};
init(X) -> {ok, X}.
handle_event({swap, To}, {B, N, S}) -> {swap_handler, [out, N], {B, N, S}, To, {swapped, B, new}};
handle_event(bad, _) -> nonsense;
handle_event(break, _) -> error(broken);
handle_event(leave, _) -> remove_handler;
handle_event(E, {B, N, S}) -> {ok, {B, N, [E | S]}}.
handle_call(seen, {_, N, S} = X) -> {ok, {N, S}, X};
handle_call(bad, _) -> nonsense;
handle_call(break, _) -> error(broken);
handle_call(go, _) -> {remove_handler, gone};
handle_call({swap, To}, {B, N, S}) -> {swap_handler, swapping, [out, N], {B, N, S}, To, {swapped, B, other}};
handle_call(slow, X) -> receive go_on -> ok after 100 -> ok end, {ok, done, X}.
handle_info(M, {B, N, S}) -> {ok, {B, N, [{info, M} | S]}}.
terminate(W, {B, N, S}) when is_pid(B) -> B ! {ended, N, tidy(W)}, {last, S};
terminate(_, _) -> ok.
got() -> receive M -> case M of {gen_event_EXIT, H, {swapped, N, P}} when is_pid(P) -> {gen_event_EXIT, H, {swapped, N}}; {gen_event_EXIT, H, R} -> {gen_event_EXIT, H, tidy(R)}; _ -> M end after 30 -> none end.
loop(S) -> receive {system, From, R} -> sys:handle_system_msg(R, From, self(), ?MODULE, [], S); {get, P} -> P ! {is, S}, loop(S); stop -> ok end.
system_continue(_, _, S) -> loop(S).
system_terminate(R, _, _, S) -> exit({R, S}).
system_get_state(S) -> {ok, {state, S}}.
system_replace_state(F, S) -> N = F(S), {ok, {new, N}, N}.
main() ->
    process_flag(trap_exit, true),
    Me = self(),
    {ok, M} = gen_event:start(),
    Sup = gen_event:add_sup_handler(M, ?MODULE, {Me, s}),
    A = [tried(fun() -> tidy(gen_event:add_handler(M, H, X)) end) || {H, X} <- [{{?MODULE, a}, {Me, a}}, {{?MODULE, a}, {Me, a}}, {{?MODULE, b}, {fails, why}}, {{?MODULE, b}, bad}, {{?MODULE, b}, {Me, b}}]],
    B = [gen_event:which_handlers(M), gen_event:call(M, {?MODULE, a}, seen), gen_event:call(M, nobody, seen), gen_event:call(M, ?MODULE, seen, 1000)],
    gen_event:sync_notify(M, e1), M ! inf,
    C = [gen_event:call(M, {?MODULE, b}, seen), tidy(gen_event:call(M, {?MODULE, b}, bad)), got(), gen_event:which_handlers(M)],
    D = [tidy(gen_event:call(M, {?MODULE, a}, break)), got(), gen_event:which_handlers(M)],
    gen_event:add_handler(M, {?MODULE, c}, {Me, c}),
    E = [gen_event:swap_handler(M, {{?MODULE, c}, args}, {{?MODULE, d}, {swapped, Me, d}}), got(), gen_event:call(M, {?MODULE, d}, seen), gen_event:swap_handler(M, {nobody, x}, {{?MODULE, z}, {swapped, Me, z}}), gen_event:call(M, {?MODULE, z}, seen), gen_event:delete_handler(M, {?MODULE, z}, bye), got(), gen_event:delete_handler(M, nobody, x)],
    gen_event:sync_notify(M, {swap, {?MODULE, n}}),
    F = [lists:sort(gen_event:which_handlers(M)), lists:sort([got() || _ <- [1, 2, 3]])],
    F1 = [gen_event:delete_handler(M, H, x) || H <- gen_event:which_handlers(M)], F2 = [got() || _ <- [1, 2, 3]],
    gen_event:add_sup_handler(M, {?MODULE, t}, {Me, t}), gen_event:notify(M, bad),
    G = [got(), got(), gen_event:which_handlers(M)],
    gen_event:add_sup_handler(M, {?MODULE, u}, {Me, u}), gen_event:notify(M, break),
    H = [got(), got()],
    gen_event:add_sup_handler(M, {?MODULE, v}, {Me, v}), gen_event:notify(M, leave),
    I = [got(), got()],
    gen_event:add_sup_handler(M, {?MODULE, w}, {Me, w}),
    I1 = [gen_event:call(M, {?MODULE, w}, go), got(), got()],
    gen_event:add_handler(M, {?MODULE, r}, {Me, r}), I2 = [gen_event:call(M, {?MODULE, r}, {swap, {?MODULE, r2}}), got(), gen_event:call(M, {?MODULE, r2}, seen), gen_event:delete_handler(M, {?MODULE, r2}, off), got()],
    P = spawn(fun() -> gen_event:add_sup_handler(M, {?MODULE, q}, {Me, q}), Me ! added, receive stop -> exit(over) end end), receive added -> ok end, P ! stop,
    Q = receive {ended, q, QW} -> QW end,
    J = [Q, got(), got(), gen_event:which_handlers(M)],
    gen_event:add_handler(M, {?MODULE, x}, {Me, x}),
    spawn(fun() -> Me ! {slow, tried(fun() -> gen_event:call(M, {?MODULE, x}, slow, 5) end)} end),
    K = [receive {slow, V} -> V end, tried(fun() -> gen_event:call(nobody, x, y) end), tried(fun() -> gen_event:notify(nobody, x) end), tried(fun() -> gen_event:sync_notify(nobody, x) end), tried(fun() -> gen_event:which_handlers(nobody) end), tried(fun() -> gen_event:stop(nobody) end), tried(fun() -> gen_event:add_handler(nobody, x, y) end)],
    timer:sleep(200),
    gen_event:add_sup_handler(M, {?MODULE, y}, {Me, y}),
    L = [gen_event:stop(M), lists:sort([got() || _ <- [1, 2, 3, 4]])],
    {ok, {M2, R2}} = gen_event:start_monitor({local, bus}),
    L1 = [gen_event:start({local, bus}) =:= {error, {already_started, M2}}, gen_event:stop(bus, why, 1000), receive {'DOWN', R2, _, _, W2} -> W2 end],
    S = spawn_link(fun() -> loop(1) end),
    N = [sys:get_state(S), sys:get_state(S, 1000), sys:replace_state(S, fun(X) -> X + 1 end), sys:suspend(S), begin S ! {get, Me}, got() end, sys:get_state(S), sys:resume(S), got(), tried(fun() -> sys:terminate(S, x) end), got_exit(S)],
    Tidy = fun tidy/1,
    O = [tried(fun() -> sys:get_state(X) end) || X <- [nobody, S]] ++ [tried(fun() -> sys:replace_state(nobody, Tidy, 10) end) =:= {exit, {noproc, {sys, {replace_state, Tidy}, [nobody, 10]}}}, tried(fun() -> sys:suspend(S, 10) end), tried(fun() -> sys:terminate(nobody, x) end), tried(fun() -> sys:get_state(spawn(fun() -> receive never -> ok end end), 5) end)],
    [Sup, A, B, C, D, E, F, F1, F2, G, H, I, I1, I2, J, K, L, L1, N, O].
got_exit(S) -> receive {'EXIT', S, W} -> W after 50 -> none end.
