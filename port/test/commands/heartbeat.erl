%% A heartbeat that never rests, so that each run comes to the limit.
-module(heartbeat).
-export([main/0]).

main() ->
    Me = self(),
    spawn(fun() -> beat(Me) end),
    listen(0).

beat(To) ->
    To ! beat,
    receive after 1 -> beat(To) end.

listen(N) -> receive beat -> listen(N + 1) end.
