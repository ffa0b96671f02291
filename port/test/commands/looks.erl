%% A process that waits is asked for its mailbox.
-module(looks).
-export([main/0, sleeps/0]).

main() ->
    P = spawn(fun() ->
        receive go -> ok end,
        receive stop -> ok end
    end),
    P ! one,
    P ! two,
    Seen = process_info(P, [message_queue_len, messages]),
    P ! go,
    P ! stop,
    Seen.

%% With --never a sleep ends, and a receive with clauses goes on.
sleeps() ->
    receive after 5000 -> ok end,
    P = spawn(fun() -> receive never -> ok after 5000 -> exit(passed) end end),
    M = monitor(process, P),
    receive {'DOWN', M, process, P, Why} -> Why after 500 -> process_info(P, message_queue_len) end.
