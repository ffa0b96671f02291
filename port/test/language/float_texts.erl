%% Floats as texts.
-module(float_texts).
-export([main/0]).

main() ->
    Some = [0.0, 1.0, -1.5, 0.1, 0.99, 123.456, 2.5e-3, 1.2e-4, 0.0001, 100.0, 1000.0, 0.3, 1234567.0, -7.0e-8],
    {[float_to_list(F, [short]) || F <- Some],
     [float_to_list(F) || F <- [0.0, -1.5, 0.1]],
     [float_to_list(F, [{decimals, N}]) || F <- [0.125, 1.005, -9.999, 0.0], N <- [0, 1, 2, 4]],
     [float_to_list(F, [{decimals, 6}, compact]) || F <- [1.5, 2.0, -0.25, 100.0]],
     [float_to_list(F, [{scientific, N}]) || F <- [1.5, 0.00123], N <- [0, 3]],
     {float_to_binary(2.5, [short]), float_to_binary(0.5, [{decimals, 1}]), binary_to_float(<<"-12.75">>)},
     [tried(fun() -> float_to_list(X, Os) end) || {X, Os} <- [{1, []}, {a, [short]}, {1.5, [x]}, {1.5, [{decimals, -1}]}, {1.5, [{decimals, 254}]}]]}.

tried(F) -> try F() catch error:R -> R end.
