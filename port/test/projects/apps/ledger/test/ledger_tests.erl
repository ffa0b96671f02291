-module(ledger_tests).
-include_lib("eunit/include/eunit.hrl").

price_test() -> ?assert(ledger:price(2) =:= 600).
