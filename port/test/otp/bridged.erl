%% A bridge between a supervisor and a worker that isn't made for one. In the race the worker's name is used before it has it.
%% modules: stdlib/src/supervisor_bridge.erl
-module(bridged).
-behaviour(supervisor_bridge).
-export([main/0, race/0, init/1, terminate/2]).

init(Boss) ->
    Worker = spawn(fun() -> register(bridged_worker, self()), Boss ! {up, self()}, work() end),
    {ok, Worker, {Boss, Worker}}.
terminate(Reason, {Boss, Worker}) ->
    Boss ! {terminated, Reason},
    exit(Worker, kill).
work() -> receive {From, hello} -> From ! hello, work() end.

main() ->
    process_flag(trap_exit, true),
    {ok, First} = supervisor_bridge:start_link(?MODULE, self()),
    Worker = receive {up, P} -> P end,
    exit(Worker, oops),
    receive {'EXIT', First, oops} -> ok end,
    {ok, Second} = supervisor_bridge:start_link(?MODULE, self()),
    receive {up, _} -> ok end,
    exit(Second, shutdown),
    receive {terminated, shutdown} -> ok end,
    receive {'EXIT', Second, shutdown} -> ok end.

race() ->
    {ok, _} = supervisor_bridge:start_link(?MODULE, self()),
    bridged_worker ! {self(), hello},
    receive hello -> ok end.
