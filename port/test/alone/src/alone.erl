-module(alone).
-export([start/0, stop/1, ask/1]).

start() -> spawn(fun() -> loop() end).

stop(Pid) -> Pid ! stop.

ask(Pid) ->
    Pid ! {ask, self()},
    receive {Pid, Answer} -> Answer end.

loop() ->
    receive
        {ask, From} -> From ! {self(), here}, loop();
        stop -> ok
    end.
