%% Things of OTP whose result does not depend on the schedule: each must be the same on erl and in every run of the tool.
-module(facts_of_servers).
-behaviour(gen_server).
-export([main/0, init/1, handle_call/3, handle_cast/2, handle_info/2, handle_continue/2, terminate/2]).


init(stop) -> {stop, not_today};
init(ignore) -> ignore;
init(crash) -> error(crashed);
init(throw) -> throw({ok, thrown});
init(bad) -> what;
init({continue, P}) -> {ok, {P, []}, {continue, go}};
init({timeout, P}) -> {ok, {P, []}, 10};
init(trap) -> process_flag(trap_exit, true), {ok, {none, []}};
init(P) -> {ok, {P, []}}.
handle_call(get, _, {_, L} = S) -> {reply, lists:reverse(L), S};
handle_call(crash, _, _) -> error(oops);
handle_call({exit, R}, _, _) -> exit(R);
handle_call(throw, _, S) -> throw({reply, thrown, S});
handle_call(badreturn, _, _) -> nonsense;
handle_call(stop, _, S) -> {stop, normal, stopped, S};
handle_call({stop, R}, _, S) -> {stop, R, S};
handle_call(later, From, {P, L}) -> self() ! {answer, From}, {noreply, {P, [later | L]}};
handle_call({add, X}, _, {P, L}) -> {reply, ok, {P, [X | L]}, {continue, {added, X}}}.
handle_cast({add, X}, {P, L}) -> {noreply, {P, [X | L]}};
handle_cast(quit, S) -> {stop, quit, S}.
handle_info({answer, From}, S) -> gen_server:reply(From, answered), {noreply, S};
handle_info(timeout, {P, L}) -> P ! timed_out, {noreply, {P, L}};
handle_info(M, {P, L}) -> {noreply, {P, [{info, tidy(M)} | L]}}.
handle_continue(go, {P, L}) -> P ! went, {noreply, {P, L}};
handle_continue({added, X}, {P, L}) -> {noreply, {P, [{after_, X} | L]}}.
terminate(R, {P, _}) when is_pid(P) -> P ! {terminated, tidy(R)}, ok;
terminate(_, _) -> ok.

tidy({R, [{_, _, _, _} | _]}) -> R;
tidy({R, []}) -> R;
tidy({'EXIT', P, R}) when is_pid(P) -> {'EXIT', tidy(R)};
tidy({R, {gen_server, call, _}}) -> {tidy(R), call};
tidy(R) -> R.
try_(F) -> try F() of V -> {ok, V} catch C:R -> {C, tidy(R)} end.
start(A) -> case gen_server:start(?MODULE, A, []) of {ok, P} -> P; E -> E end.
down(P) -> R = monitor(process, P), receive {'DOWN', R, process, P, Why} -> tidy(Why) end.
got() -> receive M -> tidy(M) end.

main() ->
    Me = self(),
    process_flag(trap_exit, true),
    R1 = start(stop),
    R2 = start(ignore),
    R3 = case start(crash) of {error, E3} -> tidy(E3) end,
    R4 = is_pid(start(throw)),
    R5 = start(bad),
    P = start(Me), Q = start(Me), [gen_server:cast(P, {add, X}) || X <- [1, 2]], P ! hello,
    R6 = [gen_server:call(P, get), gen_server:call(Q, get)],
    R7 = try_(fun() -> gen_server:call(P, crash) end),
    R8 = got(),
    R9 = down(P),
    R10 = try_(fun() -> gen_server:call(P, get) end),
    R11 = try_(fun() -> gen_server:call(nobody, get) end),
    R12 = gen_server:call(Q, later),
    R13 = gen_server:call(Q, {add, x}),
    R14 = gen_server:call(Q, get),
    R15 = gen_server:call(Q, throw),
    R16 = gen_server:call(Q, stop),
    R17 = got(),
    R = start(Me),
    R18 = try_(fun() -> gen_server:call(R, {stop, why}) end),
    R19 = got(),
    S = start(Me),
    R20 = gen_server:stop(S),
    R21 = got(),
    T = start({continue, Me}),
    R22 = got(),
    unlink(T), start({timeout, Me}),
    R23 = got(),
    {ok, U} = gen_server:start_link({local, uu}, ?MODULE, Me, []), {error, {already_started, U}} = gen_server:start({local, uu}, ?MODULE, Me, []),
    R24 = whereis(uu) =:= U,
    gen_server:cast(uu, quit),
    R25 = [got(), got()],
    R26 = whereis(uu),
    {ok, V} = gen_server:start_link(?MODULE, trap, []), exit(V, bye),
    R27 = got(),
    {ok, W} = gen_server:start(?MODULE, trap, []), exit(W, poke),
    R28 = gen_server:call(W, get),
    R29 = try_(fun() -> gen_server:start_link(?MODULE, stop, []) end),
    R30 = got(),
    {P31, N31} = spawn_monitor(fun() -> exit(quick) end),
    R31 = receive {'DOWN', N31, process, P31, W31} -> W31 end,
    {P32, N32} = spawn_monitor(fun() -> 1 = got_nothing() end),
    R32 = receive {'DOWN', N32, process, P32, W32} -> tidy(W32) end,
    {P33, N33} = spawn_monitor(fun() -> throw(ball) end),
    R33 = receive {'DOWN', N33, process, P33, W33} -> tidy(W33) end,
    P34 = spawn_link(fun() -> receive never -> ok end end), exit(P34, kill),
    R34 = got(),
    T35 = erlang:send_after(5, self(), ping),
    R35 = got(),
    R36 = erlang:cancel_timer(T35),
    T37 = erlang:start_timer(5, self(), pong),
    R37 = receive {timeout, T37, X37} -> X37 end,
    R38 = receive nothing -> a after 0 -> b end,
    R39 = receive nothing -> a after 3 -> b end,
    self() ! m,
    R40 = receive m -> a after 0 -> b end,
    M41 = monitor(process, nobody),
    R41 = receive {'DOWN', M41, process, _, W41} -> W41 end,
    M42 = monitor(process, spawn(fun() -> receive x -> ok end end)),
    R42 = demonitor(M42, [flush]),
    R43 = try_(fun() -> register(me, self()), register(me, self()) end),
    R44 = try_(fun() -> unregister(nobody) end),
    R45 = try_(fun() -> nobody ! x end),
    R46 = try_(fun() -> link(x) end),
    ets:new(tt, [named_table, public]),
    R47 = [ets:insert_new(tt, {a, 1}), ets:insert_new(tt, {a, 2}), ets:update_counter(tt, a, 5), ets:lookup(tt, a), ets:lookup(tt, b), ets:member(tt, a), ets:delete(tt, a), ets:tab2list(tt)],
    R48 = try_(fun() -> ets:lookup(no_table, a) end),
    R49 = try_(fun() -> ets:update_counter(tt, zz, 1) end),
    R50 = [put(k, 1), put(k, 2), get(k), erase(k), get(k)],
    P51 = spawn(fun() -> receive {P0, X} -> P0 ! (catch 1 + X) end end), P51 ! {Me, 2},
    R51 = got(),
    (try exit_in(Me) after Me ! cleaned end),
    R52 = got(),
    R53 = [try_(fun() -> maps:get(a, #{}) end), try_(fun() -> M53 = #{}, M53#{a := 1} end), try_(fun() -> lists:nth(3, [1]) end), try_(fun() -> element(5, {a}) end), try_(fun() -> list_to_integer("x") end)],
    R54 = lists:usort([rand:uniform(3) >= 1 || _ <- [1, 2, 3]]),
    [{1, R1}, {2, R2}, {3, R3}, {4, R4}, {5, R5}, {6, R6}, {7, R7}, {8, R8}, {9, R9}, {10, R10}, {11, R11}, {12, R12}, {13, R13}, {14, R14}, {15, R15}, {16, R16}, {17, R17}, {18, R18}, {19, R19}, {20, R20}, {21, R21}, {22, R22}, {23, R23}, {24, R24}, {25, R25}, {26, R26}, {27, R27}, {28, R28}, {29, R29}, {30, R30}, {31, R31}, {32, R32}, {33, R33}, {34, R34}, {35, R35}, {36, R36}, {37, R37}, {38, R38}, {39, R39}, {40, R40}, {41, R41}, {42, R42}, {43, R43}, {44, R44}, {45, R45}, {46, R46}, {47, R47}, {48, R48}, {49, R49}, {50, R50}, {51, R51}, {52, R52}, {53, R53}, {54, R54}].
got_nothing() -> 2.
exit_in(P) -> P ! before, receive before -> ok end.
