-module(refused_undef).
-export([main/0]).
main() -> foo(1).
%% refused: 3: function foo/1 undefined
