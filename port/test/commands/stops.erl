%% A root that stops a supervisor in order, that waits for ever with HANGS, and whose worker crashes with CRASHES.
-module(stops).
-export([main/0, init/1, start_child/0]).
-behaviour(supervisor).

start_child() -> {ok, spawn_link(fun() -> receive stop -> ok end end)}.
init([]) -> {ok, {#{}, [#{id => child, start => {?MODULE, start_child, []}, restart => temporary}]}}.

main() ->
    process_flag(trap_exit, true),
    {ok, Supervisor} = supervisor:start_link(?MODULE, []),
    exit(Supervisor, shutdown),
    receive {'EXIT', Supervisor, shutdown} -> ok end,
    last().

-ifdef(HANGS).
last() -> receive never -> ok end.
-else.
-ifdef(CRASHES).
last() -> spawn(fun() -> hd(tl([a])) end), ok.
-else.
last() -> ok.
-endif.
-endif.
