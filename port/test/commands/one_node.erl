%% What a process sends before it ends is there when its end is known, on one node; across nodes it needn't be.
-module(one_node).
-export([main/0, race/0]).

main() ->
    S = spawn(fun() -> serve(nothing) end),
    {A, R} = spawn_monitor(fun() -> S ! {put, it} end),
    receive {'DOWN', R, process, A, _} -> ok end,
    it = ask(S).

%% Nobody waits for the other here, so the answer may be either on one node too.
race() ->
    S = spawn(fun() -> serve(nothing) end),
    spawn(fun() -> S ! {put, it} end),
    it = ask(S).

ask(S) -> S ! {get, self()}, receive {S, V} -> V end.

serve(V) ->
    receive
        {put, W} -> serve(W);
        {get, P} -> P ! {self(), V}
    end.
