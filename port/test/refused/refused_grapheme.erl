-module(refused_grapheme).
-export([main/0]).
main() ->
    string:titlecase("a b").
%% refused: 4: string:titlecase/1 is not among the functions of this module that the library has (port/ENCODINGS.md); write what you need of it yourself
