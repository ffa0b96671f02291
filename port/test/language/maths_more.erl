%% What of math is exact, and what the source has the numbers of.
-module(maths_more).
-export([main/0]).

main() ->
    {[tried(fun() -> math:fmod(X, Y) end) || {X, Y} <- [{7, 3}, {-7, 3}, {7.5, -2}, {1.0e20, 3}, {0.1, 0.03}, {2, 5.5}, {0, 3}, {1, 0}, {5, 5}, {1.0e-10, 1.0e10}, {a, 1}]],
     [tried(fun() -> math:pow(X, Y) end) || {X, Y} <- [{2, 10}, {2, -3}, {2.0, 0.0}, {1.5, 3}, {-2, 3}, {-2, 4}, {10, 15}, {3, 33}, {0, 2}, {0, 0}, {0, -1}, {1, 0.3}, {2, 1023}, {2, 1024}, {2, -1074}, {2, -1080}, {0.5, 20}, {a, 2}]],
     [tried(fun() -> math:log2(X) end) || X <- [1, 2, 1024, 0.25, 4.9e-324, 0, -1, a]],
     {math:exp(0), math:log(1), math:log10(1), math:sin(0), math:cos(0), math:tan(0.0), math:atan(0), tried(fun() -> math:log(zero()) end), tried(fun() -> math:exp(an_atom()) end)},
     {math:log(2), math:exp(1), math:sqrt(2.0), math:sin(1), math:pow(2.5, 3.5), math:atan2(1, 2), math:log10(1000), tried(fun() -> math:log(0) end), tried(fun() -> math:acos(2) end)}}.

zero() -> 0.
an_atom() -> a.
tried(F) -> try F() catch C:R -> {C, R} end.
