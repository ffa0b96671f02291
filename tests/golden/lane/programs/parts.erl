-module(m).
-export([main/0]).
main() -> N = 5, {N, N + 1, {N - 1, N * 2, N div 2, N rem 2, N < 6, N == a}, self(), [N, N | []], "text", atom}.
