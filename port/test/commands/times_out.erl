%% A root waits a second for a message that comes at once: in virtual time it always comes.
-module(times_out).
-export([main/0]).

main() ->
    Main = self(),
    spawn(fun() -> Main ! here end),
    receive here -> true after 1000 -> error(late) end.
