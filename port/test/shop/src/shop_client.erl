-module(shop_client).
-export([buy/1, both/1]).
buy(What) ->
    case shop_stock:take(What) of
        ok ->
            Id = shop_orders:open(),
            ok = shop_orders:add(Id, What),
            {ok, shop_orders:close(Id)};
        Error -> Error
    end.
both(Whats) ->
    Me = self(),
    Buyers = [spawn_link(fun() -> Me ! {self(), buy(What)} end) || What <- Whats],
    [receive {Buyer, Bought} -> Bought end || Buyer <- Buyers].
