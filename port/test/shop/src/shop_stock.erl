-module(shop_stock).
-behaviour(gen_server).
-export([start_link/0, left/1, take/1, put_back/1, init/1, handle_call/3, handle_cast/2]).
start_link() -> gen_server:start_link({local, ?MODULE}, ?MODULE, [], []).
left(What) -> gen_server:call(?MODULE, {left, What}).
put_back(What) -> gen_server:call(?MODULE, {change, What, 1}).
%% Asks first and takes then: between the two another may take the last one.
take(What) ->
    case left(What) of
        0 -> {error, sold_out};
        _ -> gen_server:call(?MODULE, {change, What, -1})
    end.
init([]) ->
    {ok, Stock} = application:get_env(shop, stock),
    {ok, maps:from_list(Stock)}.
handle_call({left, What}, _From, Stock) -> {reply, maps:get(What, Stock, 0), Stock};
handle_call({change, What, By}, _From, Stock) -> {reply, ok, maps:update_with(What, fun(N) -> N + By end, By, Stock)}.
handle_cast(_, Stock) -> {noreply, Stock}.
