-module(m).
-export([main/0, pong/0]).
main() -> P = spawn(?MODULE, pong, []), rally(P, 3).
rally(P, 0) -> P ! stop, true;
rally(P, N) -> P ! {ping, self(), N}, receive {pong, N} -> rally(P, N - 1) end.
pong() -> receive {ping, P, N} -> P ! {pong, N}, pong(); stop -> ok end.
