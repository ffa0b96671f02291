%% Floats in formats.
-module(float_formats).
-export([main/0]).

main() ->
    {[f(F, [X]) || F <- ["~p", "~w", "~10w|", "~f", "~.2f", "~8.1f|", "~-8.1f|", "~e", "~.3e", "~g", "~.3g", "~10.2.0f"], X <- [1.5, -0.25, 31.41592]],
     [f("~p", [T]) || T <- [[1.5, 2.0], {a, 0.1}, #{x => 0.5}]],
     [tried(fun() -> f(F, [X]) end) || {F, X} <- [{"~f", 1}, {"~e", a}, {"~.0f", 1.5}, {"~.1e", 1.5}]]}.

f(F, As) -> lists:flatten(io_lib:format(F, As)).
tried(F) -> try F() catch error:R -> R end.
