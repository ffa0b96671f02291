-module(shop_tests).
-include_lib("eunit/include/eunit.hrl").
-include("shop.hrl").

bill_test() -> ?assertEqual("order 7: 12", shop_text:bill(#order{id = 7, total = 12})).

lines_test_() ->
    [{"two", ?_assertEqual(8, shop_lines:total([{apple, 3}, {pear, 5}]))},
     {"none", ?_assertEqual(0, shop_lines:total([]))}].

door_test() ->
    {ok, Door} = shop_door:start_link(),
    Me = self(),
    spawn_link(fun() -> Me ! {entered, shop_door:enter(Door)} end),
    shop_door:open(Door),
    receive {entered, N} -> ?assertEqual(1, N) end.

shop_test_() ->
    {setup, fun start/0, fun stop/1,
     fun(_) ->
         [{"a price", ?_assertEqual(3, shop_prices:price(apple))},
          {"one buys", fun() -> {ok, Order} = shop_client:buy(pear), ?assertEqual(5, Order#order.total) end},
          {"two buy the last", fun() -> ?assertMatch([{ok, _}, {error, sold_out}], lists:sort(fun(_, B) -> B =:= {error, sold_out} end, shop_client:both([pear, pear]))) end}]
     end}.

each_test_() ->
    {foreach, fun start/0, fun stop/1,
     [fun(_) -> ?_test(?assertEqual(2, shop_stock:left(apple))) end,
      {"notes", fun() -> {ok, _} = shop_client:buy(apple), ?assertEqual([{closed, 1}], shop_log:notes()) end}]}.

start() ->
    {ok, Started} = application:ensure_all_started(shop),
    Started.

stop(_) -> ok = application:stop(shop).
