%% Times of seconds beside work: a wait that its answer ends, and one that nothing ends.
-module(seconds).
-export([answered/0, lost/0, short/0, ordered/0, bank/0, hour/0, second/0, server/0]).

answered() ->
    S = spawn(?MODULE, server, []),
    Me = self(),
    spawn(fun() -> work(S, 40), Me ! done end),
    receive done -> S ! stop, ok after 5000 -> exit(too_late) end.

lost() ->
    S = spawn(?MODULE, server, []),
    spawn(fun() -> work(S, 4), S ! stop end),
    receive done -> ok after 5000 -> exit(too_late) end.

work(_, 0) -> ok;
work(S, N) -> S ! {ask, self(), N}, receive {answer, N} -> work(S, N - 1) end.

server() -> receive {ask, P, N} -> P ! {answer, N}, server(); stop -> ok end.

short() ->
    S = spawn(?MODULE, server, []),
    Me = self(),
    spawn(fun() -> work(S, 100), Me ! done end),
    receive done -> S ! stop, ok after 10 -> exit(too_late) end.

%% Timers of all lengths end in the order of their deadlines, whatever the order in which they are set.
ordered() ->
    [erlang:send_after(T, self(), T) || T <- [30, 20, 2000, 5, 1]],
    timer:sleep(500),
    [1, 5, 20, 30, 2000] = [receive T -> T end || _ <- [1, 2, 3, 4, 5]].

%% A bank whose clients wait for five seconds at most.
bank() ->
    B = spawn(fun() -> balance(0) end),
    Me = self(),
    [spawn(fun() -> [ok = asked(B, {add, 1}) || _ <- [1, 2, 3]], Me ! done end) || _ <- [1, 2, 3]],
    [receive done -> ok after 5000 -> exit(too_late) end || _ <- [1, 2, 3]],
    9 = asked(B, get),
    B ! stop.

balance(N) -> receive {P, R, {add, K}} -> P ! {R, ok}, balance(N + K); {P, R, get} -> P ! {R, N}, balance(N); stop -> ok end.
asked(B, Q) -> R = make_ref(), B ! {self(), R, Q}, receive {R, V} -> V after 5000 -> exit(too_late) end.

%% Waits that take as many steps, however long they are.
hour() -> receive never -> ok after 3600000 -> ok end.
second() -> receive never -> ok after 1000 -> ok end.
