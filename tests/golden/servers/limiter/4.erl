%% A rate limiter that lets two requests pass.
-module(limiter).
-export([main/0, timer/1]).

% -spec main() -> boolean().
main() ->
    Limiter = spawn(fun() -> limiter(most()) end),
    Me = self(),
    [spawn(fun() -> Me ! {answer, request(Limiter)} end) || _ <- seq(1, 3)],
    Answers = answers(seq(1, 3)),
    length(lists:filter(fun(A) -> A =:= passed end, Answers)) =< ?MOST.

most() -> 2.

answers([]) -> [];
answers([_ | Rest]) -> [receive {answer, A} -> A end | answers(Rest)].

seq(A, B) when A > B -> [];
seq(A, B) -> [A | seq(A + 1, B)].

limiter(Left) ->
    receive
        {left, From} ->
            From ! {left, Left},
            limiter(Left);
        take ->
            limiter(Left - 1)
    end.

% -spec request(pid()) -> passed | refused.
request(Limiter) ->
    Limiter ! {left, self()},
    spawn(?MODULE, timer, [self()]),
    receive
        {left, 0} -> refused;
        {left, _} -> Limiter ! take, passed;
        timeout -> refused
    end.

timer(P) -> P ! timeout.
