-module(refused_syntax).
-export([main/0]).
main() -> case X of end.
%% refused: 3: syntax error before: 'end'
