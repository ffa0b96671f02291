-module(desk).
-export([loop/0, serve/0]).

loop() -> receive stop -> ok end.

%% Two may read the same number before either writes the next.
serve() ->
    Number = counted:value() + 1,
    counted:set(Number),
    ledger:price(Number).
