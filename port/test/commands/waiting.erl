%% Three processes wait for ever, each at the line of its receive.
-module(waiting).
-export([main/0]).

main() ->
    spawn(fun() ->
        first(1),
        receive
            {a, X} ->
                first(X)
        end
    end),
    spawn(fun second/0),
    receive
        done -> first(2)
    end.

first(X) -> X.

second() ->
    receive never -> first(3) after infinity -> first(4) end.
