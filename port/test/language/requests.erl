%% Requests that are answered later, alone and several at once, and servers that begin as other processes.
-module(requests).
-behaviour(gen_server).
-export([main/0, init/1, handle_call/3, handle_cast/2, begin_it/1]).

init(X) -> {ok, X}.
handle_call({echo, V}, _, X) -> {reply, {X, V}, X};
handle_call(late, From, X) -> gen_server:reply(From, {late, X}), {noreply, X};
handle_call(die, _, _) -> exit(died).
handle_cast({to, P}, X) -> P ! {cast, X}, {noreply, X}.

begin_it(X) ->
    proc_lib:init_ack({ok, self()}),
    gen_server:enter_loop(?MODULE, [], X).

main() ->
    {ok, A} = gen_server:start(?MODULE, a, []),
    {ok, B} = gen_server:start({local, b}, ?MODULE, b, []),
    R1 = gen_server:send_request(A, {echo, 1}),
    One = gen_server:receive_response(R1, 5000),
    Two = gen_server:wait_response(gen_server:send_request(b, late), infinity),
    Cs = gen_server:send_request(B, {echo, 3}, three, gen_server:send_request(A, {echo, 2}, two, gen_server:reqids_new())),
    Size = {gen_server:reqids_size(Cs), lists:sort([L || {_, L} <- gen_server:reqids_to_list(Cs)])},
    Several = collected(Cs, []),
    R2 = gen_server:send_request(A, {echo, 4}),
    Checked = receive M -> {gen_server:check_response(other, R2), gen_server:check_response(M, R2)} end,
    Gone = gen_server:receive_response(gen_server:send_request(nobody, x), 1000),
    {error, {died, _}} = gen_server:receive_response(gen_server:send_request(A, die), infinity),
    Timed = gen_server:wait_response(make_ref(), 10),
    {ok, C} = proc_lib:start_link(?MODULE, begin_it, [c]),
    Entered = gen_server:call(C, {echo, 5}),
    Multi = {gen_server:multi_call(b, {echo, 6}), gen_server:multi_call([node(), other@nowhere], b, {echo, 7}), gen_server:multi_call(nobody, x)},
    abcast = gen_server:abcast(b, {to, self()}),
    Cast = receive {cast, X} -> X end,
    ok = sys:suspend(B),
    Held = {gen_server:wait_response(gen_server:send_request(B, {echo, 8}), 20), sys:get_state(B)},
    ok = sys:resume(B),
    Goes = gen_server:call(B, {echo, 9}),
    {One, Two, Size, Several, Checked, Gone, Timed, Entered, Multi, Cast, Held, Goes, errors()}.

collected(Cs, Got) ->
    case gen_server:receive_response(Cs, 5000, true) of
        {{reply, V}, Label, Left} -> collected(Left, [{Label, V} | Got]);
        no_request -> lists:sort(Got)
    end.

errors() ->
    [tried(F) || F <- [fun() -> gen_server:receive_response(no_request, 10) end, fun() -> gen_server:reqids_size(x) end,
                       fun() -> R = make_ref(), gen_server:reqids_add(R, a, gen_server:reqids_add(R, b, gen_server:reqids_new())) end]].

tried(F) -> try F() catch error:R -> R end.
