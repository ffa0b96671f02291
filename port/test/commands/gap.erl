%% A process calls what the library lacks, by an argument that a run alone knows, within a try that would catch an error.
-module(gap).
-export([main/0, other/0, measure/0, tied/0, between/0]).

main() ->
    _ = ets:new(t, []),
    self() ! reductions,
    receive Item -> try erlang:statistics(Item) catch _:_ -> caught end end.

other() ->
    self() ! {file, read_file, ["x"]},
    receive {M, F, As} -> catch apply(M, F, As) end.

measure() ->
    self() ! 2,
    receive X -> try math:exp(X) catch _:_ -> caught end end.

%% whether it is there depends on the order of two signals
tied() ->
    Me = self(),
    P = spawn(fun() -> receive go -> unlink(Me), Me ! done, receive stop -> ok end end end),
    P ! go,
    link(P),
    receive done -> catch process_info(self(), links) end.

%% of 35 requests one that isn't waited for is answered before the others
between() ->
    [First | Rest] = [gen_server:send_request(nobody, N) || N <- lists:seq(1, 35)],
    {_, Others} = lists:split(1, Rest),
    Requests = lists:foldl(fun(R, C) -> gen_server:reqids_add(R, l, C) end, gen_server:reqids_new(), [First | Others]),
    {_, l, Left} = gen_server:receive_response(Requests, infinity, false),
    catch gen_server:receive_response(Left, infinity, true).
