%% A circuit breaker that closes again some time after it opened.
-module(breaker).
-behaviour(gen_server).
-export([main/0, init/1, handle_call/3, handle_cast/2, handle_info/2]).
-record(b, {state = closed :: closed | open, fails = 0, limit, timer}).

run(B, F) ->
    case gen_server:call(B, ask) of
        closed ->
            try F() of
                V -> {ok, V}
            catch _:Why -> gen_server:cast(B, {failed, self()}), {error, Why}
            end;
        open -> {error, open}
    end.
init(Limit) -> {ok, #b{limit = Limit}}.
handle_call(ask, _From, #b{state = St} = S) -> {reply, St, S};
handle_call(reset, _From, S) -> {reply, ok, stop_timer(S#b{state = closed, fails = 0})};
handle_call(state, _From, #b{state = St, fails = N} = S) -> {reply, {St, N}, S}.
handle_cast({failed, _}, #b{fails = N, limit = L} = S) when N + 1 >= L -> {noreply, open(S#b{fails = N + 1})};
handle_cast({failed, _}, #b{fails = N} = S) -> {noreply, S#b{fails = N + 1}}.
-ifdef(FIXED).
open(S) -> S#b{state = open, timer = erlang:start_timer(20, self(), close)}.
stop_timer(#b{timer = undefined} = S) -> S;
stop_timer(#b{timer = T} = S) -> erlang:cancel_timer(T), S#b{timer = undefined}.
handle_info({timeout, T, close}, #b{timer = T} = S) -> {noreply, S#b{state = closed, fails = 0, timer = undefined}};
handle_info({timeout, _, close}, S) -> {noreply, S}.
-else.
open(S) -> erlang:send_after(20, self(), close), S#b{state = open}.
stop_timer(S) -> S.
handle_info(close, #b{state = open, fails = N}) when N =:= 0 -> error(impossible);
handle_info(close, #b{state = closed}) -> error(stale_timer);
handle_info(close, S) -> {noreply, S#b{state = closed, fails = 0}}.
-endif.

main() ->
    {ok, B} = gen_server:start_link(?MODULE, 1, []),
    {error, boom} = run(B, fun() -> throw(boom) end),
    _ = gen_server:call(B, state),
    ok = gen_server:call(B, reset),
    R = run(B, fun() -> lists:sum([1, 2, 3]) end),
    timer:sleep(40),
    {ok, 6} = R,
    {closed, 0} = gen_server:call(B, state),
    R.
%% reported: crash <[0-9]+> at breaker\.erl:32 breaker:handle_info/2: error stale_timer
