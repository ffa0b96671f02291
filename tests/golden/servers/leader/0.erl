%% Three candidates tell each other their numbers; the highest leads.
-module(leader).
-export([main/0]).

-spec main() -> boolean().
main() ->
    Me = self(),
    Candidates = [spawn(fun() -> candidate(Me, N) end) || N <- lists:seq(1, 3)],
    lists:foreach(fun(C) -> C ! {others, lists:delete(C, Candidates)} end, Candidates),
    Leaders = [receive {leader, C, N} -> N end || C <- Candidates],
    lists:all(fun(N) -> N =:= 3 end, Leaders).

-spec candidate(pid(), pos_integer()) -> term().
candidate(Boss, Number) ->
    receive
        {others, Others} ->
            lists:foreach(fun(P) -> P ! {claim, Number} end, Others),
            Boss ! {leader, self(), highest(Number)}
    end.

highest(Number) ->
    receive
        {claim, Other} -> highest(max(Number, Other))
    after 100 ->
        Number
    end.
