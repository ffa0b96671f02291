-module(refused_bits).
-export([main/0]).
main() -> {f(<<0:64>>), h(<<0:32>>), g(7)}.
f(<<A/float, _/binary>>) -> A.
h(<<A/utf16, _/binary>>) -> A.
g(X) -> <<X/utf32>>.
%% refused: 4: a float or a character of UTF-16 or UTF-32 in a binary is not translated; take integers, or utf8
%% refused: 5: a float or a character of UTF-16 or UTF-32 in a binary is not translated; take integers, or utf8
%% refused: 6: a float or a character of UTF-16 or UTF-32 in a binary is not translated; take integers, or utf8
