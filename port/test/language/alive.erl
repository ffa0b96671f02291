%% Whether processes are alive: one that waits, one that has ended, one that was ended, and what is no process.
-module(alive).
-export([main/0]).

main() ->
    Waits = spawn(fun() -> receive stop -> ok end end),
    {Ended, M} = spawn_monitor(fun() -> ok end),
    receive {'DOWN', M, process, Ended, normal} -> ok end,
    Killed = spawn(fun() -> receive never -> ok end end),
    exit(Killed, kill),
    One = [is_process_alive(P) || P <- [self(), Waits, Ended, Killed]],
    Waits ! stop,
    {One, gone(Waits), timers(), try is_process_alive(hd([me])) catch error:E -> E end, nothing()}.

gone(P) -> case is_process_alive(P) of true -> timer:sleep(1), gone(P); false -> gone end.

%% To ask takes no time: what is set before comes after.
timers() ->
    erlang:send_after(5, self(), late),
    P = spawn(fun() -> timer:sleep(1), receive stop -> ok end end),
    self() ! {alive, is_process_alive(P)},
    [receive late -> late; {alive, A} -> A end || _ <- [1, 2]].

nothing() -> receive M -> M after 0 -> nothing end.
