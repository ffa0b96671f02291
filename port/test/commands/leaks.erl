%% Leaves a server that waits: by STOPPED in some runs, by FIXED in none. The clock of the translation waits in each.
-module(leaks).
-export([main/0]).

main() ->
    Me = self(),
    Server = spawn(fun() -> serve(Me) end),
    Server ! {ask, 1},
    receive {answer, 1} -> ok after 10 -> late end,
    stopped(Server).

-ifdef(FIXED).
stopped(Server) -> Server ! stop, ok.
-else.
-ifdef(STOPPED).
%% it is stopped where the first message comes first
stopped(Server) ->
    Me = self(),
    spawn(fun() -> Me ! first end),
    spawn(fun() -> Me ! second end),
    receive first -> Server ! stop, ok; second -> ok end.
-else.
stopped(_) -> ok.
-endif.
-endif.

serve(To) ->
    receive
        {ask, N} -> To ! {answer, N}, serve(To);
        stop -> ok
    end.
