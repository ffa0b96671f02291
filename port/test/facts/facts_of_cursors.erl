%% Cursors of qlc: each is the same on erl and in every run of the tool.
-module(facts_of_cursors).
-include_lib("stdlib/include/qlc.hrl").
-export([main/0]).

main() -> given() ++ owned() ++ wrong().

t(F) -> try F() of V -> V catch C:R -> {C, kind(R)} end.

kind({Kind, P}) when is_pid(P) -> Kind;
kind(Kind) -> Kind.

given() ->
    T = ets:new(t, [ordered_set]),
    ets:insert(T, [{N, N * N} || N <- lists:seq(1, 13)]),
    C = qlc:cursor(ets:table(T)),
    D = qlc:cursor(qlc:q([Y || {X, Y} <- ets:table(T), X rem 2 =:= 1]), unique_all),
    First = [qlc:next_answers(C, 2), qlc:next_answers(D, 1), qlc:next_answers(C), qlc:next_answers(C, all_remaining),
             qlc:next_answers(C), qlc:next_answers(C, 1)],
    Rest = [qlc:next_answers(D, all_remaining), qlc:delete_cursor(C), qlc:delete_cursor(C),
            t(fun() -> qlc:next_answers(C, 1) end), qlc:delete_cursor(D)],
    E = qlc:cursor([b, a, b], [{unique_all, true}, {max_list_size, 100}]),
    First ++ Rest ++ [qlc:next_answers(E, 5), qlc:next_answers(qlc:cursor(qlc:sort([c, a, b])), 2), element(1, E),
                      qlc:next_answers(qlc:cursor([]))].

%% another process has no use of a cursor, which ends with its owner
owned() ->
    Me = self(),
    C = qlc:cursor([1, 2]),
    {_, {P, _}} = C,
    {Q, M} = spawn_monitor(fun() ->
        Own = qlc:cursor([1]),
        Others = [t(fun() -> qlc:next_answers(C) end), t(fun() -> qlc:delete_cursor(C) end)],
        Me ! {self(), Others ++ [qlc:next_answers(Own)], Own}
    end),
    {qlc_cursor, {Of, _}} = receive {Q, Told, Its} -> Its end,
    receive {'DOWN', M, process, Q, normal} -> ok end,
    N = monitor(process, Of),
    receive {'DOWN', N, process, Of, Why} -> ok end,
    Told ++ [lists:member(Why, [normal, noproc]), is_process_alive(P), qlc:next_answers(C, all_remaining)].

wrong() ->
    C = qlc:cursor([1, 2]),
    Fails = qlc:cursor(qlc:q([error(X) || X <- [bad, worse]])),
    [t(fun() -> qlc:cursor(x) end), t(fun() -> qlc:cursor([], x) end), t(fun() -> qlc:next_answers(C, 0) end),
     t(fun() -> qlc:next_answers(x) end), t(fun() -> qlc:delete_cursor(x) end),
     t(fun() -> qlc:next_answers(Fails) end), t(fun() -> qlc:next_answers(Fails) end)].
