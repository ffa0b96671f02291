-module(shop_sup).
-behaviour(supervisor).
-export([start_link/0, init/1]).
start_link() -> supervisor:start_link({local, ?MODULE}, ?MODULE, []).
init([]) ->
    Child = fun(Module) -> #{id => Module, start => {Module, start_link, []}} end,
    {ok, {#{strategy => one_for_one, intensity => 2, period => 10}, [Child(M) || M <- [shop_log, shop_stock, shop_prices, shop_orders]]}}.
