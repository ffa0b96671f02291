%% Processes of proc_lib: what starting, telling and stopping return and raise: each is the same on erl and in every run of the tool.
-module(facts_of_proc_lib).
-export([main/0, child/1, init_it/6, late/1, quick/0, boom/1, ghost/1, hi/2]).
tried(F) -> try {ok, F()} catch C:R -> {C, tidy(R)} end.
tidy({R, [{_,_,_,_}|_]}) -> {R, st};
tidy({R, []}) -> {R, st};
tidy({R, {sys, terminate, [P | Args]}}) when is_pid(P) -> {R, {sys, terminate, Args}};
tidy(R) -> R.
child(X) -> proc_lib:init_ack({ok, self(), X}), receive stop -> ok end.
late(P) -> receive go -> proc_lib:init_ack(P, {ok, self()}) end.
quick() -> exit(quick).
boom(X) -> error(X).
ghost(X) -> throw(X).
init_it(_, _, _, _, _, _) -> ok.
hi(P, X) -> P ! {hi, X}, ok.
main() ->
    process_flag(trap_exit, true),
    Me = self(),
    A = [tried(fun() -> proc_lib:spawn(X) end) || X <- [a, 1]],
    B = [tried(fun() -> proc_lib:spawn_link(m, f, x) end), tried(fun() -> proc_lib:spawn_opt(x, []) end), tried(fun() -> proc_lib:spawn_opt(fun() -> ok end, [x]) end), tried(fun() -> proc_lib:spawn_opt(fun() -> ok end, x) end)],
    {P1, M1} = proc_lib:spawn_opt(fun() -> exit(why) end, [monitor]),
    C = receive {'DOWN', M1, process, P1, W1} -> W1 end,
    P2 = proc_lib:spawn_opt(?MODULE, hi, [Me, 1], [link, {priority, low}]),
    D = receive {hi, 1} -> receive {'EXIT', P2, W2} -> W2 end end,
    {P3, M3} = proc_lib:spawn_opt(?MODULE, boom, [x], [link, {monitor, []}]),
    E = {receive {'DOWN', M3, process, P3, W3} -> tidy(W3) end, receive {'EXIT', P3, W4} -> tidy(W4) end},
    P4 = proc_lib:spawn_link(fun() -> throw(ball) end),
    F = receive {'EXIT', P4, W5} -> tidy(W5) end,
    {ok, P5, k} = proc_lib:start(?MODULE, child, [k]),
    {ok, P6, k} = proc_lib:start_link(?MODULE, child, [k], 1000),
    {ok, P7, k} = proc_lib:start(?MODULE, child, [k], infinity, []),
    {ok, P8, k} = proc_lib:start_link(?MODULE, child, [k], 1000, [{priority, low}]),
    {{ok, P9, k}, M9} = proc_lib:start_monitor(?MODULE, child, [k]),
    {{ok, P10, k}, M10} = proc_lib:start_monitor(?MODULE, child, [k], 1000),
    {{ok, P11, k}, M11} = proc_lib:start_monitor(?MODULE, child, [k], 1000, [link]),
    [P ! stop || P <- [P5, P6, P7, P8, P9, P10, P11]],
    G = [receive {'DOWN', M, process, _, X} -> X end || M <- [M9, M10, M11]] ++ [receive {'EXIT', P, X} -> X end || P <- [P6, P8, P11]],
    H = [proc_lib:start(?MODULE, late, [Me], 10), proc_lib:start_link(?MODULE, late, [Me], 10), proc_lib:start(?MODULE, quick, []), proc_lib:start_link(?MODULE, quick, [])],
    {I1, I2} = proc_lib:start_monitor(?MODULE, quick, []),
    I = {I1, receive {'DOWN', I2, _, _, Y} -> Y end},
    {J1, J2} = proc_lib:start_monitor(?MODULE, late, [Me], 10),
    J = {J1, receive {'DOWN', J2, _, _, Z} -> Z end},
    K = [tried(fun() -> proc_lib:start(?MODULE, child, [k], 10, [monitor]) end), tried(fun() -> proc_lib:start_link(?MODULE, child, [k], 10, [monitor]) end), tried(fun() -> proc_lib:start(1, child, [k]) end),
         tried(fun() -> proc_lib:start_monitor(?MODULE, child, [k], 10, [{monitor, []}]) end), tried(fun() -> proc_lib:start(?MODULE, child, k) end)],
    [E1, E2] = [receive {'EXIT', _, O} -> O after 0 -> none end || _ <- [1, 2]],
    L = [proc_lib:start_link(?MODULE, boom, [b]), proc_lib:start(?MODULE, ghost, [g])],
    [case X of {error, R} -> {error, tidy(R)}; X -> X end || X <- H ++ L] ++ [on_node(Me), A, B, C, D, E, F, G, I, J, K, E1, E2,
     tried(fun() -> proc_lib:init_ack(x) end), stopping()].
on_node(Me) ->
    Say = fun(N) -> fun() -> Me ! {on, N} end end,
    Heard = fun(N) -> receive {on, N} -> N end end,
    Ps = [proc_lib:spawn(node(), Say(1)), proc_lib:spawn(node(), ?MODULE, hi, [Me, 2]), proc_lib:spawn_link(node(), Say(3)), proc_lib:spawn_link(node(), ?MODULE, hi, [Me, 4]),
          proc_lib:spawn_opt(node(), Say(5), [{priority, low}]), proc_lib:spawn_opt(node(), ?MODULE, hi, [Me, 6], [link])],
    [receive {'EXIT', P, W} -> W end || P <- [lists:nth(I, Ps) || I <- [3, 4, 6]]] ++ [Heard(N) || N <- [1, 3, 5]] ++ [receive {hi, N} -> N end || N <- [2, 4, 6]]
        ++ [tried(fun() -> proc_lib:spawn(1, Say(7)) end), tried(fun() -> proc_lib:spawn_link(node(), x) end), tried(fun() -> proc_lib:spawn_opt(1, m, f, [], []) end)].
stopping() ->
    {ok, P, _} = proc_lib:start(?MODULE, child, [k]),
    Q = proc_lib:spawn(fun() -> receive {system, {A, R}, {terminate, W}} -> A ! {R, ok}, exit(W) end end),
    N = proc_lib:spawn(fun() -> receive {system, {A, R}, {terminate, _}} -> A ! {R, ok}, exit(other) end end),
    O = proc_lib:spawn(fun() -> receive {system, _, {terminate, _}} -> exit(gone) end end),
    V = [tried(fun() -> proc_lib:stop(Q, bye, 1000) end), tried(fun() -> proc_lib:stop(N) end), tried(fun() -> proc_lib:stop(O) end), tried(fun() -> proc_lib:stop(P, x, 5) end), tried(fun() -> proc_lib:stop(nobody) end),
     tried(fun() -> proc_lib:stop(Q, normal, 10) end)],
    P ! stop,
    V.
