%% A pool of two workers, which are handed jobs as they become free.
-module(pool).
-export([main/0, timer/1]).

% -spec main() -> boolean().
main() ->
    Me = self(),
    [spawn(fun() -> worker(Me) end) || _ <- seq(1, 2)],
    Results = serve(seq(1, 4), 4, []),
    Results =:= ten_times(lists:seq(1, 4)).

seq(A, B) when A > B -> [];
seq(A, B) -> [A | seq(A + 1, B)].

% -spec serve([integer()], non_neg_integer(), [integer()]) -> [integer()].
serve(_, 0, Results) ->
    reverse(Results, []);
serve(Jobs, Left, Results) ->
    spawn(?MODULE, timer, [self()]),
    receive
        {free, Worker} when Jobs =/= [] ->
            Worker ! {job, hd(Jobs)},
            serve(tl(Jobs), Left, Results);
        {result, R} ->
            serve(Jobs, Left - 1, [R | Results]);
        timeout -> exit(too_late)
    end.

ten_times([]) -> [];
ten_times([X | Rest]) -> [X * 10 | ten_times(Rest)].

reverse([], Done) -> Done;
reverse([X | Rest], Done) -> reverse(Rest, [X | Done]).

worker(Boss) ->
    Boss ! {free, self()},
    spawn(?MODULE, timer, [self()]),
    receive
        {job, X} ->
            Boss ! {result, X * 10},
            worker(Boss);
        timeout -> ok
    end.

timer(P) -> P ! timeout.
