%% What of math is exact, or rounded as IEEE 754 says, and what the source has the numbers of.
-module(maths).
-export([main/0]).

main() ->
    {math:pi(), [tried(fun() -> math:sqrt(X) end) || X <- [0, 1, 2, 3, 4, 0.5, 1.0e300, 4.9e-324, 1.5e-310, 123456789, 0.1, 2.0000000000000004, -1, -0.5, a]],
     [{tried(fun() -> math:floor(X) end), tried(fun() -> math:ceil(X) end)} || X <- [0, 1.5, -1.5, 0.5, 1.0e300, 7, -0.25, "x", 4503599627370497.0]]}.

tried(F) -> try F() catch C:R -> {C, R} end.
