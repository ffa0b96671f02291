-module(shop_prices).
-behaviour(gen_server).
-export([start_link/0, price/1, set/2, init/1, handle_call/3, handle_cast/2, terminate/2]).
start_link() -> gen_server:start_link({local, ?MODULE}, ?MODULE, [], []).
price(What) -> gen_server:call(?MODULE, {price, What}).
set(What, Price) -> gen_server:cast(?MODULE, {set, What, Price}).
init([]) -> process_flag(trap_exit, true), {ok, application:get_env(shop, prices, [])}.
handle_call({price, What}, _From, Prices) -> {reply, proplists:get_value(What, Prices, unknown), Prices}.
handle_cast({set, What, Price}, Prices) -> {noreply, [{What, Price} | proplists:delete(What, Prices)]}.
terminate(_Reason, _Prices) -> ok.
