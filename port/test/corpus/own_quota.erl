%% A limiter and an auditor under a supervisor. The auditor takes its name when it runs, after its start.
-module(own_quota).
-behaviour(supervisor).
-export([main/0, race/0, init/1, start_limiter/0, start_auditor/0]).

main() ->
    {ok, S} = supervisor:start_link(?MODULE, []),
    Children = lists:sort([Id || {Id, _, _, _} <- supervisor:which_children(S)]),
    limiter ! {take, 3, self()},
    receive {left, N} -> {Children, N} end.

race() ->
    {ok, _} = supervisor:start_link(?MODULE, []),
    auditor ! {note, taken},
    ok.

init([]) ->
    {ok, {#{}, [#{id => F, start => {?MODULE, F, []}} || F <- [start_limiter, start_auditor]]}}.

start_limiter() ->
    P = spawn_link(fun() -> limiter(10) end),
    register(limiter, P),
    {ok, P}.
limiter(N) -> receive {take, M, From} -> From ! {left, N - M}, limiter(N - M) end.

start_auditor() -> {ok, spawn_link(fun() -> register(auditor, self()), auditor() end)}.
auditor() -> receive {note, _} -> auditor() end.
