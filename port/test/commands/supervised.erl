%% A supervisor stops its children in an orderly way; with BROKEN a child ends by an error, with KILLED somebody else kills it.
-module(supervised).
-behaviour(supervisor).
-export([main/0, init/1, start_child/0]).

start_child() -> {ok, spawn_link(fun child/0)}.
init([]) ->
    {ok, {#{strategy => one_for_one, intensity => 3, period => 5},
          [#{id => gentle, start => {?MODULE, start_child, []}, shutdown => 1000, restart => temporary},
           #{id => brutal, start => {?MODULE, start_child, []}, shutdown => brutal_kill, restart => temporary}]}}.

-ifdef(BROKEN).
child() -> error(broken).
-else.
child() -> receive stop -> ok end.
-endif.

main() ->
    process_flag(trap_exit, true),
    {ok, Supervisor} = supervisor:start_link(?MODULE, []),
    kill(),
    exit(Supervisor, shutdown),
    receive {'EXIT', Supervisor, shutdown} -> stopped end.

-ifdef(KILLED).
kill() ->
    Victim = spawn(fun() -> receive stop -> ok end end),
    exit(Victim, kill).
-else.
kill() -> ok.
-endif.
