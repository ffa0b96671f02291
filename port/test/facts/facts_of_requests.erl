%% Collections of more than eight requests: which answers there are is the same on erl and in every run of the tool, though
%% their order is not.
-module(facts_of_requests).
-export([main/0, init/1, callback_mode/0, handle_call/3, handle_cast/2, handle_event/4]).
tried(F) -> try F() catch C:R -> {C, R} end.
init(server) -> {ok, s};
init(machine) -> {ok, s, 0}.
callback_mode() -> handle_event_function.
handle_call(die, _, _) -> exit(died);
handle_call(none, _, S) -> {noreply, S};
handle_call(Q, _, S) -> {reply, {s, Q}, S}.
handle_cast(_, S) -> {noreply, S}.
handle_event({call, From}, Q, _, _) -> {keep_state_and_data, [{reply, From, {m, Q}}]}.

asked(M, P, Ns) -> lists:foldl(fun(N, C) -> M:send_request(P, N, {label, N}, C) end, M:reqids_new(), Ns).

received(M, C, Got) ->
    case M:receive_response(C, infinity, true) of
        {Answer, L, Left} -> received(M, Left, [{L, tidy(Answer), M:reqids_size(Left)} | Got]);
        no_request -> lists:reverse(Got)
    end.

waited(M, C, T, Got) ->
    case M:wait_response(C, T, true) of
        {Answer, L, Left} -> waited(M, Left, T, [{L, tidy(Answer)} | Got]);
        timeout -> {left, M:reqids_size(C), lists:sort([L || {_, L} <- M:reqids_to_list(C)]), lists:sort(Got)};
        no_request -> lists:sort(Got)
    end.

tidy({error, {Why, P}}) when is_pid(P) -> {error, Why};
tidy(Answer) -> Answer.

checked(_, C, 0, Got) -> {gen_server:reqids_size(C), lists:sort(Got)};
checked(M, C, N, Got) ->
    receive
        Message ->
            case M:check_response(Message, C, true) of
                {Answer, L, Left} -> checked(M, Left, N - 1, [{L, tidy(Answer)} | Got]);
                Other -> checked(M, C, N - 1, [Other | Got])
            end
    end.

main() ->
    {ok, A} = gen_server:start(?MODULE, server, []),
    {ok, B} = gen_statem:start(?MODULE, machine, []),
    C1 = asked(gen_server, A, lists:seq(1, 12)),
    S1 = {gen_server:reqids_size(C1), lists:sort([L || {_, L} <- gen_server:reqids_to_list(C1)])},
    S2 = received(gen_server, C1, []),
    S3 = received(gen_statem, asked(gen_statem, B, lists:seq(1, 40)), []),
    C2 = asked(gen_server, A, [none | lists:seq(1, 9)]),
    self() ! before,
    S4 = waited(gen_server, C2, 10, []),
    C3 = asked(gen_server, A, [none | lists:duplicate(9, none)]),
    S5 = {gen_server:wait_response(C3, 5, false), gen_server:receive_response(C3, 5, false), gen_server:wait_response(C3, 0, true)},
    C4 = asked(gen_server, A, lists:seq(1, 10)),
    {{reply, V}, {label, N}, C4b} = gen_server:receive_response(C4, {abs, erlang:monotonic_time(millisecond) + 1000}, false),
    S6 = {V, N, gen_server:reqids_size(C4b), length(received(gen_server, maps_less(C4b, N), []))},
    S7 = [receive before -> before end, receive M -> M after 0 -> nothing end],
    S8 = checked(gen_server, asked(gen_server, A, lists:seq(1, 11)), 11, []),
    S9 = [gen_server:check_response(other, asked(gen_server, nobody, lists:seq(1, 3)), true), checked(gen_server, gen_server:reqids_new(), 3, [])],
    C5 = asked(gen_server, A, lists:seq(1, 9) ++ [die, 10]),
    S10 = lists:sort([{L, W} || {L, W, _} <- received(gen_server, C5, []), L =/= {label, 10}]),
    S11 = lists:sort(received(gen_server, asked(gen_server, A, lists:seq(1, 9)), [])),
    S12 = lists:sort([L || {L, {error, noproc}, _} <- received(gen_statem, asked(gen_statem, nobody, lists:seq(1, 9)), [])]),
    S13 = [tried(fun() -> gen_statem:F(x, T, D) end) || F <- [receive_response, wait_response], T <- [0], D <- [true, x]] ++ [tried(fun() -> gen_server:check_response(x, y, true) end)],
    S14 = [tried(fun() -> gen_server:F(C1, T, D) end) || F <- [receive_response, wait_response], {T, D} <- [{-1, true}, {x, true}, {0, x}, {4294967296, true}, {{abs, x}, false}]] ++
        [tried(fun() -> gen_server:F(gen_server:reqids_new(), T, D) end) || F <- [receive_response, wait_response], {T, D} <- [{-1, true}, {0, x}, {0, false}]] ++
        [tried(fun() -> gen_server:check_response(M, C, D) end) || M <- [x, {make_ref(), 1}], {C, D} <- [{C1, x}, {y, true}, {C1, true}]] ++
        [tried(fun() -> gen_statem:F(make_ref(), T) end) || F <- [receive_response, wait_response], T <- [-1, x, 0]],
    [S1, S2, S3, S4, S5, S6, S7, S8, S9, S10, S11, S12, S13, S14, between()].

%% of fourteen requests three aren't among those that are waited for, and are answered between them
between() ->
    {ok, A} = gen_server:start(?MODULE, server, []),
    All = [{gen_server:send_request(A, N), {label, N}} || N <- lists:seq(1, 14)],
    Others = [lists:nth(I, All) || I <- [1, 6, 10]],
    C = lists:foldl(fun({R, L}, To) -> gen_server:reqids_add(R, L, To) end, gen_server:reqids_new(), All -- Others),
    {lists:sort(received(gen_server, C, [])), [gen_server:receive_response(R, infinity) || {R, _} <- Others]}.

maps_less(C, N) ->
    lists:foldl(fun({_, {label, L}}, New) when L =:= N -> New; ({R, L}, New) -> gen_server:reqids_add(R, L, New) end, gen_server:reqids_new(), gen_server:reqids_to_list(C)).
