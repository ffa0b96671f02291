-module(ledger).
-include_lib("counted/include/counted.hrl").
-export([price/1]).

price(Number) -> Number * ?PRICE * ?UNIT.
