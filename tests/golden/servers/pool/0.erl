%% A pool of two workers, which are handed jobs as they become free.
-module(pool).
-export([main/0]).

-spec main() -> boolean().
main() ->
    Me = self(),
    [spawn(fun() -> worker(Me) end) || _ <- lists:seq(1, 2)],
    Results = serve(lists:seq(1, 4), 4, []),
    Results =:= lists:map(fun(X) -> X * 10 end, lists:seq(1, 4)).

-spec serve([integer()], non_neg_integer(), [integer()]) -> [integer()].
serve(_, 0, Results) ->
    lists:reverse(Results);
serve(Jobs, Left, Results) ->
    receive
        {free, Worker} when Jobs =/= [] ->
            Worker ! {job, hd(Jobs)},
            serve(tl(Jobs), Left, Results);
        {result, R} ->
            serve(Jobs, Left - 1, [R | Results])
    after 10000 ->
        exit(too_late)
    end.

worker(Boss) ->
    Boss ! {free, self()},
    receive
        {job, X} ->
            Boss ! {result, X * 10},
            worker(Boss)
    after 10000 ->
        ok
    end.
