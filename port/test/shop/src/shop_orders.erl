-module(shop_orders).
-behaviour(gen_server).
-include("shop.hrl").
-export([start_link/0, open/0, add/2, close/1, init/1, handle_call/3, handle_cast/2]).
start_link() -> gen_server:start_link({local, ?MODULE}, ?MODULE, [], []).
open() -> gen_server:call(?MODULE, open).
add(Id, What) -> gen_server:call(?MODULE, {add, Id, What}).
close(Id) -> gen_server:call(?MODULE, {close, Id}).
init([]) -> {ok, {1, #{}}}.
handle_call(open, _From, {Next, Orders}) -> {reply, Next, {Next + 1, Orders#{Next => #order{id = Next}}}};
handle_call({add, Id, What}, _From, {Next, Orders}) ->
    #{Id := Order} = Orders,
    case shop_lines:add(What, Order#order.lines) of
        {ok, Lines} -> {reply, ok, {Next, Orders#{Id := Order#order{lines = Lines}}}};
        {error, Why} -> {reply, {error, Why}, {Next, Orders}}
    end;
handle_call({close, Id}, _From, {Next, Orders}) ->
    {#order{lines = Lines} = Order, Left} = maps:take(Id, Orders),
    shop_log:note({closed, Id}),
    {reply, Order#order{total = shop_lines:total(Lines)}, {Next, Left}}.
handle_cast(_, State) -> {noreply, State}.
