%% package: erlang-poolboy
%% modules: poolboy.beam poolboy_sup.beam
%% beside: pooled.erl
-module(poolboy_workers).
-export([main/0, race/0]).

main() ->
    {ok, Pool} = poolboy:start([{worker_module, pooled}, {size, 2}, {max_overflow, 1}], []),
    Begun = poolboy:status(Pool),
    Workers = [poolboy:checkout(Pool) || _ <- [1, 2, 3]],
    Answers = [gen_server:call(Worker, work) || Worker <- Workers],
    Full = {poolboy:status(Pool), poolboy:checkout(Pool, false)},
    [ok = poolboy:checkin(Pool, Worker) || Worker <- Workers],
    Done = poolboy:status(Pool),
    {Begun, Answers, Full, Done, poolboy:stop(Pool)}.

%% Who holds a worker ends, and the pool is asked before it knows of that.
race() ->
    {ok, Pool} = poolboy:start([{worker_module, pooled}, {size, 1}, {max_overflow, 0}], []),
    {Holder, Monitor} = spawn_monitor(fun() -> poolboy:checkout(Pool) end),
    receive {'DOWN', Monitor, process, Holder, _} -> ok end,
    {ready, 1, 0, 0} = poolboy:status(Pool).
