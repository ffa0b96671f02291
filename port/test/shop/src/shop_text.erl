-module(shop_text).
-include("shop.hrl").
-export([bill/1]).
bill(#order{id = Id, total = Total}) -> "order " ++ integer_to_list(Id) ++ ": " ++ integer_to_list(Total).
