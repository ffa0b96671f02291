%% A root that waits for a time: nobody else goes but the clock and who counts the time.
-module(waits_alone).
-export([main/0]).

main() ->
    erlang:send_after(1000, self(), late),
    receive late -> true end.
