%% @doc A little time, by chance.
-module(check_yield).
-export([yield/0]).

-spec yield() -> ok.
yield() ->
    case rand:uniform(4) of
        1 -> timer:sleep(rand:uniform(3) - 1);
        2 ->
            erlang:yield(),
            ok;
        _ -> ok
    end.
