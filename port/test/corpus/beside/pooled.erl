%% A worker of a pool.
-module(pooled).
-behaviour(gen_server).
-export([start_link/1, init/1, handle_call/3, handle_cast/2]).

start_link(Arguments) -> gen_server:start_link(?MODULE, Arguments, []).
init(_) -> {ok, 0}.
handle_call(work, _, N) -> {reply, {done, N}, N + 1}.
handle_cast(_, N) -> {noreply, N}.
