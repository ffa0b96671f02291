-module(m).
-export([main/0, s/2]).
main() -> S = self(), spawn(?MODULE, s, [S, a]), spawn(?MODULE, s, [S, b]), {take(), take(), take(), take()}.
s(P, T) -> P ! {T, 1}, P ! {T, 2}.
take() -> receive M -> M end.
