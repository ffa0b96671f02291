-module(bank).
-export([main/0, server/1, client/2]).
% The same work as programs/bank.erl in its fixed form, by the same protocol: a named server, calls with a monitor, clients that are monitored.
main() ->
    whereis(bank),
    Pid = spawn_link(bank, server, [self()]),
    receive {ack, P0, {ok, _}} when P0 == Pid -> ok end,
    R1 = start(10),
    R2 = start(5),
    down(R1),
    down(R2),
    {ok, B} = call({balance, alice}),
    R = monitor(process, Pid),
    Pid ! {system, {self(), R}, {terminate, normal}},
    receive {S, ok} when S == R -> ok end,
    receive {'DOWN', S1, process, _, normal} when S1 == R -> ok end,
    15 = B.
start(N) ->
    G = make_ref(),
    P = spawn(bank, client, [N, G]),
    R = monitor(process, P),
    P ! G,
    R.
down(R) -> receive {'DOWN', S, process, _, normal} when S == R -> ok end.
client(N, G) ->
    receive S when S == G -> ok end,
    ok = call({deposit, alice, N}).
call(M) ->
    P = whereis(bank),
    R = monitor(process, P),
    P ! {'$gen_call', {self(), R}, M},
    receive
        {S, V} when S == R -> demonitor(R), flush(R), V;
        {'DOWN', S, process, _, Why} when S == R -> exit(Why)
    end.
flush(R) ->
    self() ! {flush, R},
    receive
        {flush, S} when S == R -> true;
        {'DOWN', S, _, _, _} when S == R -> receive {flush, S1} when S1 == R -> true end
    end.
server(Parent) ->
    register(bank, self()),
    Parent ! {ack, self(), {ok, self()}},
    loop(Parent, [{alice, 0}, {bob, 0}]).
loop(Parent, Accounts) ->
    receive
        {'$gen_call', {P, R}, {balance, Who}} -> P ! {R, find(Who, Accounts)}, loop(Parent, Accounts);
        {'$gen_call', {P, R}, {deposit, Who, N}} -> P ! {R, ok}, loop(Parent, add(Who, N, Accounts));
        {system, {P, R}, {terminate, Why}} -> P ! {R, ok}, exit(Why)
    end.
find(_, []) -> {error, unknown};
find(Who, [{Name, B} | _]) when Name == Who -> {ok, B};
find(Who, [_ | T]) -> find(Who, T).
add(Who, N, [{Name, B} | T]) when Name == Who -> [{Name, B + N} | T];
add(Who, N, [A | T]) -> [A | add(Who, N, T)].
