%% What timers return, send and do, and their errors: each is the same on erl and in every run of the tool.
-module(facts_of_timers).
-export([main/0, done/2, crash/0]).
tried(F) -> try {ok, F()} catch C:R -> {C, tidy(R)} end.
tidy({R, [{_,_,_,_}|_]}) -> {R, st};
tidy({R, []}) -> {R, st};
tidy(R) -> R.
done(P, X) -> P ! {done, X}.
crash() -> exit(crashed).
ok_({ok, _}) -> ok;
ok_(X) -> X.
got(T) -> receive M -> M after T -> none end.
main() ->
    process_flag(trap_exit, true),
    Me = self(),
    register(facts_timers_me, Me),
    A = [ok_(timer:send_after(T, D, m)) || {T, D} <- [{0, Me}, {1, facts_timers_me}, {1, {facts_timers_me, node()}}, {-1, Me}, {x, Me}, {1, 7}, {x, facts_timers_me}, {1, nobody}, {1.5, Me}]],
    A1 = [got(50) || _ <- [1,2,3,4]],
    B = [ok_(timer:apply_after(T, ?MODULE, F, As)) || {T, F, As} <- [{0, done, [Me, 1]}, {1, done, [Me, 2]}, {-1, done, []}, {x, done, []}, {1, 7, []}, {1, done, x}, {1, crash, []}]],
    B1 = [got(50) || _ <- [1,2,3]],
    C = [ok_(timer:send_interval(T, D, m)) || {T, D} <- [{-1, Me}, {x, Me}, {1, 7}]],
    {ok, T1} = timer:send_interval(3, tick), C1 = [got(50), got(50)], C2 = timer:cancel(T1), flushed(tick),
    {ok, T2} = timer:send_interval(3, facts_timers_me, tock), C3 = [got(50), got(50)], C4 = timer:cancel(T2), flushed(tock),
    D = [ok_(timer:apply_interval(T, M, done, As)) || {T, M, As} <- [{-1, ?MODULE, []}, {1, 7, []}, {1, ?MODULE, x}]],
    {ok, T3} = timer:apply_interval(3, ?MODULE, done, [Me, i]), D1 = [got(50), got(50)], D2 = timer:cancel(T3), timer:sleep(20), flushed({done, i}), D3 = timer:cancel(T3),
    E = [timer:cancel(X) || X <- [x, {once, x}, {instant, make_ref()}, {send_local, make_ref()}, make_ref()]],
    {ok, T4} = timer:send_after(1000, never), E1 = [timer:cancel(T4), timer:cancel(T4), got(20)],
    {ok, T5} = timer:apply_after(1000, ?MODULE, done, [Me, never]), E2 = [timer:cancel(T5), timer:cancel(T5), got(20)],
    F = [ok_(timer:exit_after(T, P, R)) || {T, P, R} <- [{-1, Me, x}, {x, Me, x}]] ++ [ok_(timer:kill_after(x)), ok_(timer:exit_after(x, y))],
    P1 = spawn_link(fun() -> receive never -> ok end end), register(facts_timers_p, P1), {ok, _} = timer:exit_after(1, facts_timers_p, over), F1 = tidy_(got(50), P1),
    P2 = spawn_link(fun() -> {ok, _} = timer:exit_after(1, mine), receive never -> ok end end), F2 = tidy_(got(50), P2),
    P3 = spawn_link(fun() -> {ok, _} = timer:kill_after(1), receive never -> ok end end), F3 = tidy_(got(50), P3),
    G = [tried(fun() -> timer:sleep(T) end) || T <- [0, 1, -1, x]],
    H = [tried(fun() -> timer:seconds(x) end), timer:minutes(2), timer:hms(1, 1, 1), element(2, timer:tc(lists, reverse, [[1, 2]])), element(2, timer:tc(fun() -> k end)), tried(fun() -> timer:now_diff(x, y) end)],
    I = [tried(fun() -> erlang:X(T, To, m) end) || X <- [send_after, start_timer], {T, To} <- [{-1, Me}, {x, Me}, {1, 7}, {1, {facts_timers_me, node()}}]],
    I1 = [erlang:cancel_timer(make_ref()), tried(fun() -> erlang:cancel_timer(x) end), erlang:read_timer(make_ref())],
    R1 = erlang:send_after(5000, Me, m), I2 = [is_integer(erlang:read_timer(R1)), is_integer(erlang:cancel_timer(R1)), erlang:cancel_timer(R1), erlang:read_timer(R1)],
    R2 = erlang:start_timer(1, Me, x), I3 = receive {timeout, R2, X2} -> X2 end,
    R3 = erlang:send_after(5000, Me, m), I4 = [erlang:cancel_timer(R3, [{async, true}, {info, false}]), erlang:cancel_timer(R3, [{info, false}])],
    R4 = erlang:send_after(5000, Me, m), ok = erlang:cancel_timer(R4, [{async, true}]), I5 = receive {cancel_timer, R4, V4} -> is_integer(V4) end,
    R5 = erlang:start_timer(erlang:monotonic_time(millisecond) + 2, Me, abs, [{abs, true}]), I6 = receive {timeout, R5, X5} -> X5 end,
    [A, lists:sort(A1), B, lists:sort(B1), C, C1, C2, C3, C4, D, D1, D2, D3, E, E1, E2, F, F1, F2, F3, G, H, I, I1, I2, I3, I4, I5, I6, timer:start()].
flushed(M) -> receive M -> flushed(M) after 0 -> ok end.
tidy_({'EXIT', P, W}, P) -> W;
tidy_(X, _) -> X.
