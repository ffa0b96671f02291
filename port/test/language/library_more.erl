%% Times, timers, starting by proc_lib, and what sys answers: the same as on Erlang.
-module(library_more).
-export([main/0, child/1, failing/1, done/2, init/1, handle_call/3, handle_cast/2]).
-behaviour(gen_server).

init(S) -> {ok, S}.
handle_call(get, _From, S) -> {reply, S, S}.
handle_cast(_, S) -> {noreply, S}.

main() ->
    Units = [erlang:convert_time_unit(T, A, B) || {T, A, B} <- [{1500, millisecond, second}, {-1, millisecond, second}, {2, second, native}, {7, 3, 2}, {-7, 3, 2}, {5, native, microsecond}]],
    {Units, tried(fun() -> erlang:convert_time_unit(1, parsec, second) end), tried(fun() -> erlang:nif_error(not_loaded) end), timers(), started(), servers(),
     {timer:hms(1, 2, 3), timer:hours(2), timer:now_diff({1, 2, 3}, {1, 1, 5}), element(2, timer:tc(fun(X) -> X end, [3]))}, erlang:system_info(wordsize),
     length(erlang:system_info(otp_release)), os:getenv("SURELY_NOT_SET_HERE"), os:getenv("SURELY_NOT_SET_HERE", other), left_out()}.

left_out() ->
    [error_logger:tty(false), error_logger:format("~w", [a]), error_logger:info_report(b), logger:alert("c", [], #{}), logger:log(info, "d"),
     logger:set_module_level(?MODULE, none), io:put_chars(standard_error, ""), io:setopts([])].

tried(F) -> try F() catch error:Reason -> {error, Reason} end.

timers() ->
    {ok, _} = timer:apply_after(1, ?MODULE, done, [self(), applied]),
    A = receive {done, X} -> X end,
    {ok, T} = timer:send_interval(1, tick),
    receive tick -> ok end,
    receive tick -> ok end,
    {ok, cancel} = timer:cancel(T),
    P = spawn(fun() -> receive never -> ok end end),
    R = monitor(process, P),
    {ok, _} = timer:exit_after(1, P, over),
    B = receive {'DOWN', R, process, P, Why} -> Why end,
    Q = spawn(fun() -> receive never -> ok end end),
    S = monitor(process, Q),
    {ok, _} = timer:kill_after(1, Q),
    C = receive {'DOWN', S, process, Q, Killed} -> Killed end,
    {ok, U} = timer:apply_after(100000, ?MODULE, done, [self(), late]),
    {ok, cancel} = timer:cancel(U),
    {A, B, C}.

done(To, What) -> To ! {done, What}.

started() ->
    process_flag(trap_exit, true),
    {ok, P} = proc_lib:start_link(?MODULE, child, [self()]),
    P ! {hello, self()},
    A = receive {hello, X} -> X end,
    P ! stop,
    receive {'EXIT', P, Reason} -> {A, Reason, proc_lib:start_link(?MODULE, failing, [bad]), proc_lib:start(?MODULE, failing, [worse])} end.

child(_) ->
    proc_lib:init_ack({ok, self()}),
    loop().

loop() -> receive {hello, From} -> From ! {hello, back}, loop(); stop -> ok end.

failing(Why) -> exit(Why).

servers() ->
    {ok, P} = gen_server:start_link(?MODULE, one, []),
    {sys:get_state(P), sys:replace_state(P, fun(S) -> {S, two} end), gen_server:call(P, get), sys:terminate(P, normal)}.
