-module(shop_lines).
-export([add/2, total/1]).
add(_What, Lines) when length(Lines) >= ?MAX_LINES -> {error, full};
add(What, Lines) -> {ok, [{What, shop_prices:price(What)} | Lines]}.
total(Lines) -> lists:sum([Price || {_, Price} <- Lines, is_integer(Price)]).
