-module(main).
-export([main/0]).
main() ->
    {ok, _} = shop_sup:start_link(),
    {ok, D} = shop_door:start_link(),
    shop_door:open(D),
    1 = shop_door:enter(D),
    _ = shop_client:both([pear, apple]),
    shop_prices:set(apple, 4), shop_stock:put_back(apple),
    {ok, O} = shop_client:buy(apple),
    {shop_text:bill(O), shop_log:notes()}.
