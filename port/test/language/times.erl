%% Times that are none.
-module(times).
-export([main/0]).

main() ->
    {[tried(fun() -> erlang:send_after(T, self(), m) end) || T <- [-1, x]], [tried(fun() -> erlang:start_timer(T, self(), m) end) || T <- [-1, []]],
     [ended(T) || T <- [-1, soon, {}]], ended(0), ended(1)}.

ended(T) ->
    {P, M} = spawn_monitor(fun() -> receive never -> ok after T -> exit(over) end end),
    receive {'DOWN', M, process, P, Why} -> case Why of {Reason, _} -> Reason; _ -> Why end end.

tried(F) -> try F(), ok catch C:R -> {C, R} end.
