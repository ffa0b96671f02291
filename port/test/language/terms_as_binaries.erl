%% Terms as binaries and back, and characters of lists and binaries.
-module(terms_as_binaries).
-export([main/0]).

main() ->
    Terms = [0, 255, 256, -1, -2147483648, 2147483647, 2147483648, 1099511627776, -1099511627776, 9223372036854775807, a, 'A b', [], [1, 2, 3],
             [1, a, 300], "text", {}, {a, b}, {1, {2, [3]}}, 1.5, -0.25, <<>>, <<"bin">>, #{}, #{a => 1, "k" => [v]}, [[], [a | [b]]]],
    {[{term_to_binary(T), binary_to_term(term_to_binary(T)) =:= T} || T <- Terms],
     [tried(fun() -> binary_to_term(B) end) || B <- [<<>>, <<131>>, <<131, 97>>, <<1, 2>>, a, <<131, 200>>]],
     byte_size(term_to_binary({a, [1, 2]}, [{minor_version, 1}])), binary_to_term(<<131, 119, 1, $a>>, [safe]),
     [unicode:characters_to_list(T) || T <- ["abc", <<"abc">>, [<<"a">>, $b, ["c", <<"d">>]], <<104, 195, 169, 226, 130, 172>>, []]],
     [unicode:characters_to_binary(T) || T <- ["abc", [233, 8364], <<"x">>, [<<"a">>, "b"]]],
     {unicode:characters_to_list(<<233>>, latin1), unicode:characters_to_binary(<<233>>, latin1), unicode:characters_to_binary("a" ++ [233], utf8, latin1)},
     [tried(fun() -> unicode:characters_to_list(T) end) || T <- [a, [a], 1]]}.

tried(F) -> try F() catch error:R -> R end.
