%% Handlers that take the place of others, states that are entered again, and processes that proc_lib starts.
-module(in_their_place).
-export([main/0, init/1, handle_event/2, handle_call/2, terminate/2, callback_mode/0, handle_event/4, ready/2]).

%% a handler: its state is a list
init({statem, P}) -> {ok, on, P, [{state_timeout, infinity, x}]};
init({P, {handed, S}}) -> {ok, {P, S}};
init({P, error}) -> {ok, {P, nothing}};
init(fails) -> {error, no};
init({fails, _}) -> {error, no};
init(P) -> {ok, {P, first}}.
handle_event({tell, X}, {P, S}) -> P ! {heard, S, X}, {ok, {P, S}};
handle_event({instead, New}, {P, S}) -> {swap_handler, asked, {P, S}, New, P}.
handle_call(who, {P, S}) -> {ok, S, {P, S}}.
terminate(asked, {_, S}) -> {handed, {after_, S}};
terminate(R, {P, S}) -> P ! {ended, R, S}, {handed, S};
terminate(_, _) -> ok.

%% a machine
callback_mode() -> [handle_event_function, state_enter].
handle_event(enter, Old, on, P) -> P ! {entered, Old}, keep_state_and_data;
handle_event({call, From}, again, on, _) -> {repeat_state_and_data, [{reply, From, again}]};
handle_event({call, From}, {again, D}, on, _) -> {repeat_state, D, [{reply, From, again}]};
handle_event({call, From}, data, on, P) -> {keep_state_and_data, [{reply, From, P =:= self()}]}.

ready(P, X) -> proc_lib:init_ack({X, self()}), receive {go, P} -> P ! {went, self()} end.

main() ->
    Me = self(),
    {ok, M} = gen_event:start(),
    ok = gen_event:add_handler(M, {?MODULE, 1}, Me),
    ok = gen_event:swap_handler(M, {{?MODULE, 1}, gone}, {{?MODULE, 2}, Me}),
    Ended = receive {ended, _, _} = E -> E end,
    Second = gen_event:call(M, {?MODULE, 2}, who),
    ok = gen_event:sync_notify(M, {instead, {?MODULE, 3}}),
    Third = {gen_event:which_handlers(M), gen_event:call(M, {?MODULE, 3}, who)},
    ok = gen_event:swap_sup_handler(M, {{?MODULE, none}, x}, {{?MODULE, 4}, Me}),
    Fourth = gen_event:call(M, {?MODULE, 4}, who),
    Failed = gen_event:swap_handler(M, {{?MODULE, 3}, asked}, {{?MODULE, 5}, fails}),
    R = gen_event:send_request(M, {?MODULE, 4}, who),
    Answered = gen_event:receive_response(R, 1000),
    No = gen_event:receive_response(gen_event:send_request(M, nobody, who), 1000),
    ok = gen_event:swap_sup_handler(M, {{?MODULE, 4}, asked}, {{?MODULE, 6}, Me}),
    Swapped = receive {gen_event_EXIT, H, {swapped, New, P}} -> {H, New, P =:= Me} end,
    {ok, S} = gen_statem:start(?MODULE, {statem, Me}, []),
    again = gen_statem:call(S, again),
    again = gen_statem:call(S, {again, Me}),
    Entered = [receive {entered, Old} -> Old end || _ <- [1, 2, 3]],
    Data = gen_statem:receive_response(gen_statem:send_request(S, data), 1000),
    {{ok, Q}, Mon} = proc_lib:start_monitor(?MODULE, ready, [Me, ok]),
    Q ! {go, Me},
    Went = receive {went, Q} -> went end,
    Down = receive {'DOWN', Mon, process, Q, Why} -> Why end,
    {{error, Early}, Mon2} = proc_lib:start_monitor(erlang, exit, [early]),
    Early2 = receive {'DOWN', Mon2, process, _, Why2} -> Why2 end,
    {Both, Ref} = spawn_opt(fun() -> receive stop -> ok end end, opts(Me)),
    Both ! stop,
    Stopped = receive {'DOWN', Ref, process, Both, Why3} -> Why3 end,
    {Ended, Second, Third, Fourth, Failed, Answered, No, Swapped, Entered, Data, Went, Down, Early, Early2, Stopped}.

opts(_) -> [link, monitor].
