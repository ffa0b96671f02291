%% A stock of goods. Who takes one asks first how many are left, and two who ask at once both get the last.
-module(stock).
-behaviour(gen_server).
-export([start/1, stop/1, take/0, back/1, init/1, handle_call/3, handle_cast/2]).

start(N) -> {ok, P} = gen_server:start({local, ?MODULE}, ?MODULE, N, []), P.
stop(P) -> gen_server:stop(P).
back(N) -> gen_server:call(?MODULE, {back, N}).
-ifdef(FIXED).
take() -> gen_server:call(?MODULE, take).
-else.
take() ->
    case gen_server:call(?MODULE, left) of
        0 -> sold_out;
        N -> gen_server:call(?MODULE, {left, N - 1})
    end.
-endif.

init(N) -> {ok, N}.
handle_call(left, _, N) -> {reply, N, N};
handle_call({left, N}, _, _) -> {reply, <<"one">>, N};
handle_call(take, _, 0) -> {reply, sold_out, 0};
handle_call(take, _, N) -> {reply, <<"one">>, N - 1};
handle_call({back, M}, _, N) -> {reply, {ok, self()}, N + M}.
handle_cast(_, N) -> {noreply, N}.
