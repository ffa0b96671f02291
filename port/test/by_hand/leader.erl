-module(leader).
-export([main/0, candidate/1, names/0]).
% The same work as programs/leader.erl in its fixed form: a process takes the name for whoever asks first, so that nobody is refused by an error.
main() ->
    Names = spawn(leader, names, []),
    register(names, Names),
    P1 = spawn_link(leader, candidate, [self()]),
    P2 = spawn_link(leader, candidate, [self()]),
    P3 = spawn_link(leader, candidate, [self()]),
    R1 = role(P1),
    R2 = role(P2),
    R3 = role(P3),
    P1 ! stop,
    P2 ! stop,
    P3 ! stop,
    1 = leaders([R1, R2, R3]),
    ok.
role(P) -> receive {Q, R} when Q == P -> R end.
leaders([]) -> 0;
leaders([leader | T]) -> 1 + leaders(T);
leaders([_ | T]) -> leaders(T).
candidate(Boss) ->
    R = make_ref(),
    names ! {register, self(), R, leader, self()},
    receive {S, Taken} when S == R -> Boss ! {self(), stand(Taken)} end,
    receive stop -> ok end.
stand(true) -> leader;
stand(false) -> follower.
names() ->
    receive
        {register, From, R, Name, P} ->
            case whereis(Name) of
                undefined -> register(Name, P), From ! {R, true};
                _ -> From ! {R, false}
            end,
            names()
    end.
