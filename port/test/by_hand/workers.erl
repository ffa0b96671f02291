-module(workers).
-export([main/0, worker/1]).
% The same work as programs/workers.erl in its fixed form: two workers run four jobs, and the results are put in order.
main() ->
    W1 = spawn_link(workers, worker, [self()]),
    W2 = spawn_link(workers, worker, [self()]),
    W1 ! {run, {1, {times, 1, 10}}},
    W2 ! {run, {2, {times, 2, 10}}},
    Results = collect([{3, {times, 3, 10}}, {4, {times, 4, 10}}], 4, []),
    W1 ! stop,
    W2 ! stop,
    [10, 20, 30, 40] = values(sorted(Results, [])).
collect(_, 0, Acc) -> Acc;
collect(Jobs, N, Acc) ->
    receive {result, W, I, V} -> collect(next(W, Jobs), N - 1, [{I, V} | Acc]) end.
next(_, []) -> [];
next(W, [J | Js]) -> W ! {run, J}, Js.
sorted([], Acc) -> Acc;
sorted([X | Xs], Acc) -> sorted(Xs, insert(X, Acc)).
insert(X, []) -> [X];
insert({I, V}, [{J, W} | T]) when I < J -> [{I, V}, {J, W} | T];
insert(X, [Y | T]) -> [Y | insert(X, T)].
values([]) -> [];
values([{_, V} | T]) -> [V | values(T)].
worker(Boss) ->
    receive
        {run, {I, {times, X, Factor}}} -> Boss ! {result, self(), I, X * Factor}, worker(Boss);
        stop -> ok
    end.
