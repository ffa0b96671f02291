%% Receives with maps, guards of maps, binaries and records, and what they leave in the mailbox.
-module(receives).
-export([main/0]).
-record(job, {id, data = <<>>, tries = 0}).

main() ->
    [self() ! M || M <- [#{kind => a, n => 1}, {tagged, #{kind => b}}, #job{id = 1, data = <<"x">>}, <<"GET /">>, {call, 7}, last, {tries, #{n => 3}}, {bare, 5}]],
    A = receive #{kind := a, n := N1} -> {a, N1}; #{} -> other end,
    B = receive {tagged, #{kind := K}} -> K; {tagged, _} -> unknown end,
    C = receive #job{id = I, data = <<D, _/binary>>} when D > $a -> {I, D}; #job{} -> job end,
    D2 = receive <<"GET ", Rest/binary>> -> Rest; Bin when is_binary(Bin) -> Bin end,
    E = receive {call, X} when X rem 2 =:= 1, is_integer(X); X =:= none -> odd; {call, _} -> even end,
    F = receive {tries, M2} when map_get(n, M2) > 2 -> many; {tries, _} -> few end,
    Map = #{limit => 5},
    G = receive {bare, Y} when is_map_key(limit, Map), Y >= map_get(limit, Map) -> over; {bare, _} -> under end,
    H = receive last -> last after 0 -> none end,
    J = receive Any -> Any after 0 -> empty end,
    {A, B, C, D2, E, F, G, H, J, timed(), nested(3), in_try()}.

timed() ->
    self() ! two,
    self() ! one,
    R = receive one -> 1 after 1000 -> late end,
    {R, receive two -> 2 after 0 -> late end, receive three -> 3 after 1 -> late end}.

nested(0) -> [];
nested(N) ->
    self() ! {n, N},
    receive {n, M} -> self() ! {m, M}, receive {m, O} -> [O | nested(N - 1)] end end.

in_try() ->
    self() ! {value, 3},
    try receive {value, V} when V > 2 -> throw({big, V}); {value, V} -> V end
    catch throw:{big, W} -> {caught, W}
    after self() ! cleaned
    end.
