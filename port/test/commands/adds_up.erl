%% A process adds one number to another: each order of its messages adds up. With FIRST the sum is taken after the first, which is one of two.
-module(adds_up).
-export([main/0]).

-ifdef(FIRST).
-define(AWAITED, 1).
-else.
-define(AWAITED, 2).
-endif.

main() ->
    Main = self(),
    spawn(fun() -> Main ! {add, 1} end),
    spawn(fun() -> Main ! {add, 2} end),
    sum(0, ?AWAITED) > 1.

sum(Sum, 0) -> Sum;
sum(Sum, Left) -> receive {add, Number} -> sum(Sum + Number, Left - 1) end.
