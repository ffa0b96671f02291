%% Answers that come after the time of their call are dropped: each is the same on erl and in every run of the tool.
-module(facts_of_late_answers).
-export([main/0, init/1, callback_mode/0, handle_call/3, handle_cast/2, handle_info/2, handle_event/4, terminate/2, looper/1]).
tried(F) -> try {ok, F()} catch C:R -> {C, tidy(R)} end.
tidy({R, {M, F, [P | As]}}) when is_pid(P) -> {R, {M, F, As}};
tidy(R) -> R.

init(machine) -> {ok, s, []};
init(S) -> {ok, S}.
callback_mode() -> handle_event_function.
handle_call({slow, T}, _, S) -> timer:sleep(T), {reply, slow, S};
handle_call({later, T}, From, S) -> erlang:send_after(T, self(), {answer, From}), {noreply, S};
handle_call({ask, P, T}, _, S) -> {reply, tried(fun() -> gen_server:call(P, {slow, T}, T div 2) end), S};
handle_call(seen, _, S) -> {reply, S, S}.
handle_cast(_, S) -> {noreply, S}.
handle_info({answer, From}, S) -> gen_server:reply(From, late), {noreply, S};
handle_info(M, S) -> {noreply, [M | S]}.
handle_event({call, From}, {slow, T}, _, _) -> timer:sleep(T), {keep_state_and_data, [{reply, From, slow}]};
handle_event(info, _, _, _) -> keep_state_and_data.
terminate(_, _) -> ok.

mail(T) -> receive M -> [M | mail(T)] after T -> [] end.
pairs() -> receive {A, B} -> [{A, B} | pairs()] after 0 -> [] end.
looper(To) -> receive stop -> To ! stopped; M -> To ! {got, M}, looper(To) end.

main() ->
    {ok, A} = gen_server:start(?MODULE, [], []),
    {ok, M} = gen_statem:start(?MODULE, machine, []),
    R1 = tried(fun() -> gen_server:call(A, {slow, 200}, 100) end),
    R2 = mail(300),
    R3 = [tried(fun() -> gen_server:call(A, {later, 200}, 50) end), timer:sleep(300), pairs(), mail(0)],
    R4 = [tried(fun() -> gen_statem:call(M, {slow, 200}, 50) end), mail(300)],
    R5 = [tried(fun() -> sys:get_state(begin A ! x, gen_server:cast(A, y), spawn(fun() -> gen_server:call(A, {slow, 200}) end), timer:sleep(25), A end, 50) end), mail(300)],
    R6 = [tried(fun() -> gen_server:call(A, {slow, 200}, 100) end), begin self() ! {own, message}, timer:sleep(300), mail(0) end],
    {ok, B} = gen_server:start(?MODULE, [], []),
    R7 = [gen_server:call(B, {ask, A, 200}), begin timer:sleep(300), gen_server:call(B, seen) end],
    R8 = [catch gen_server:call(A, seen, 250), tried(fun() -> gen_server:call(A, {later, 100}, 250) end), mail(300)],
    C = spawn(fun() -> timer:sleep(150), gen_server:call(A, {slow, 5}, 500) end),
    T = monitor(process, C),
    R9 = receive {'DOWN', T, process, C, Why} -> Why end,
    {ok, D} = gen_server:start(?MODULE, [], []),
    spawn(fun() -> gen_server:call(D, {slow, 200}) end),
    timer:sleep(25),
    R10 = [tried(fun() -> gen_server:stop(D, normal, 50) end), mail(300)],
    Me = self(),
    E = spawn(fun() -> tried(fun() -> gen_server:call(A, {slow, 200}, 100) end), Me ! tried, looper(Me) end),
    R11 = receive tried -> timer:sleep(300), E ! {{a, b}, c}, E ! stop, mail(100) end,
    R12 = [tried(fun() -> gen_server:call(A, {slow, 200}, 100) end), timer:sleep(300), process_info(self(), message_queue_len), mail(0)],
    R13 = [tried(fun() -> gen:call(A, '$gen_call', {slow, 200}, 50) end), mail(300)],
    [R1, R2, R3, R4, R5, R6, R7, R8, R9, R10, R11, R12, R13].
