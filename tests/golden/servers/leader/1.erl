%% Three candidates tell each other their numbers; the highest leads.
-module(leader).
-export([main/0, timer/1]).

% -spec main() -> boolean().
main() ->
    Me = self(),
    Candidates = [spawn(fun() -> candidate(Me, N) end) || N <- seq(1, 3)],
    lists:foreach(fun(C) -> C ! {others, lists:delete(C, Candidates)} end, Candidates),
    Leaders = [receive {leader, C, N} -> N end || C <- Candidates],
    lists:all(fun(N) -> N =:= 3 end, Leaders).

seq(A, B) when A > B -> [];
seq(A, B) -> [A | seq(A + 1, B)].

% -spec candidate(pid(), pos_integer()) -> term().
candidate(Boss, Number) ->
    receive
        {others, Others} ->
            claim_all(Number, Others),
            Boss ! {leader, self(), highest(Number)}
    end.

claim_all(_, []) -> ok;
claim_all(Number, [P | Rest]) -> P ! {claim, Number}, claim_all(Number, Rest).

highest(Number) ->
    spawn(?MODULE, timer, [self()]),
    receive
        {claim, Other} -> highest(max(Number, Other));
        timeout -> Number
    end.

timer(P) -> P ! timeout.
