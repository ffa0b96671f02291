%% Three candidates tell each other their numbers; the highest leads.
-module(leader).
-export([main/0, timer/1]).

% -spec main() -> boolean().
main() ->
    Me = self(),
    Candidates = [spawn(fun() -> candidate(Me, N) end) || N <- seq(1, 3)],
    introduce(Candidates, Candidates),
    Leaders = [receive {leader, C, N} -> N end || C <- Candidates],
    lists:all(fun(N) -> N =:= 3 end, Leaders).

introduce([], _) -> ok;
introduce([C | Rest], All) -> C ! {others, lists:delete(C, All)}, introduce(Rest, All).

seq(A, B) when A > B -> [];
seq(A, B) -> [A | seq(A + 1, B)].

% -spec candidate(pid(), pos_integer()) -> term().
candidate(Boss, Number) ->
    receive
        {others, Others} ->
            claim_all(Number, Others),
            Boss ! {leader, self(), highest(Number)}
    end.

claim_all(_, []) -> ok;
claim_all(Number, [P | Rest]) -> P ! {claim, Number}, claim_all(Number, Rest).

highest(Number) ->
    spawn(?MODULE, timer, [self()]),
    receive
        {claim, Other} -> highest(max(Number, Other));
        timeout -> Number
    end.

timer(P) -> P ! timeout.
