%% A supervisor with one child, as small as such a program is.
-module(one_child).
-behaviour(supervisor).
-export([main/0, init/1, child/0, loop/1]).
main() ->
    {ok, S} = supervisor:start_link(?MODULE, []),
    [{worker, P, worker, _}] = supervisor:which_children(S),
    P ! {ping, self()},
    receive pong -> ok end.
init([]) -> {ok, {#{strategy => one_for_one, intensity => 1, period => 5}, [#{id => worker, start => {?MODULE, child, []}}]}}.
child() -> {ok, spawn_link(?MODULE, loop, [0])}.
loop(N) -> receive {ping, P} -> P ! pong, loop(N + 1) end.
