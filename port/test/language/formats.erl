%% Formats: words, texts and numbers, with width, precision and padding.
-module(formats).
-export([main/0]).

main() ->
    Terms = [abc, 'A b', 'end', "text", "a \"b\"\n", [], [1, 2], <<"bin">>, <<1, 2>>, <<>>, {a, "b", [c]}, #{k => "v", {x} => 1}, -5, [[1], "two"], 'it\'s'],
    [[f("~p", [T]) || T <- Terms], [f("~w", [T]) || T <- Terms],
     [f(F, [42]) || F <- ["~b", "~5b", "~5..0b", "~-5b|", "~.16b", "~.2B", "~2b", "~6.16.0B", "~1b", "~w", "~6w", "~-6..-w"]],
     [f(F, [255]) || F <- ["~.16b", "~.16B", "~4.16.0b", "~3.16.#b"]],
     [f(F, ["hello"]) || F <- ["~s", "~10s", "~-10s|", "~3s", "~.3s", "~10.3s", "~-10.3..s|", "~ts", "~8..-s"]],
     f('~p', [{a, lists:seq(1, 40)}]), f(<<"~P~n~30p">>, [{a, lists:seq(1, 40)}, 9, {tag, lists:seq(1, 20)}]),
     [lists:prefix(P, f(F, [X])) || {P, F, X} <- [{"#Fun", "~p", fun main/0}, {"#Fun", "~w", fun(X) -> {X, Terms} end}, {"{a,[#Fun", "~tp", {a, [fun() -> Terms end]}},
                                                  {"[#Ref", "~w", [make_ref()]}, {"{#Ref", "~p", {make_ref()}}]],
     f("~s ~s ~s", [abc, <<"bin">>, ["x", [$y, <<"z">>]]]), f("~c~3c~5.2c|", [$a, $b, $c]), f("~2n~n~~~i~w", [left_out, x]),
     [tried(F, A) || {F, A} <- [{"~w", []}, {"~s", [1]}, {"~b", [x]}, {"plain", [1]}, {"~q", [1]}, {x, []}]]].

f(F, As) -> lists:flatten(io_lib:format(F, As)).
tried(F, As) -> try f(F, As) catch error:R -> R end.
