%% Floats: sums, products and order, to the last bit, and what becomes of them as integers.
-module(floats).
-export([main/0]).

-record(limits, {high = 0.99, low = -2.5e-3}).

main() ->
    {tenths(), sums([1, 0.5, 2, 1.0e300, -7]), mean([1, 2, 4]), small(), ints(), kinds(), limits(#limits{}),
     orders(), guards([1, 1.0, -0.25, 0.5, 2, a, {}, "s", <<1>>, #{}]), lists(), errors(), met(1.5), met(1), met({1.5, x}),
     maps(), timed(3.0)}.

tenths() -> {0.1 + 0.2, 0.1 + 0.2 == 0.3, 3 * 0.1, 1 - 0.9, -0.1 + 0.1, 1 / 3, 2 / 4, 10 / 2, 1.0e308 * 0.1}.

sums(L) -> {lists:sum(L), lists:foldl(fun(X, A) -> A - X end, 0, L), lists:foldl(fun(X, A) -> A * X end, 1, L)}.

mean(L) -> lists:sum(L) / length(L).

small() -> {4.9e-324 + 4.9e-324, 2.2250738585072014e-308 / 4, 4.9e-324 / 2, 1.5e-323 * 0.5, 1.0e-200 * 1.0e-200}.

ints() -> [{trunc(X), round(X), floor(X), ceil(X)} || X <- [2.5, -2.5, 3.5, -0.4, 0.5, 0.49999999999999994, 7, -0.0, 1.0e18, -1.5]].

kinds() -> [{is_float(X), is_number(X), is_integer(X), is_tuple(X), is_list(X), is_atom(X)} || X <- [1.5, 1, a, {}, {a, b}, []]].

limits(#limits{high = High, low = Low}) when High > 0, Low < 0 -> {High, Low, abs(Low), -High, max(High, 1), min(Low, -1), High =:= 0.99};
limits(_) -> none.

orders() ->
    [{A < B, A =< B, A == B, A =:= B, A > B} || {A, B} <- [{1, 1.0}, {1.0, 1}, {2, 1.5}, {1.5, 2}, {a, 1.5}, {1.5, a}, {1.5, {}}, {[1.5], [1]},
        {{1, 2.0}, {1.0, 2}}, {9007199254740993, 9007199254740992.0}, {-0.0, 0.0}, {9223372036854775807, 9.3e18}, {-1.0e30, -5}]].

guards(L) -> [guard(X) || X <- L].

guard(X) when X > 1.5 -> {above, X};
guard(X) when X == 1 -> one;
guard(X) when X >= 0.5, X =< 0.5 -> half;
guard(X) when is_float(X), X < 0 -> {below, X};
guard(_) -> other.

lists() -> {lists:sort([3, 1.5, a, 2, 1, -0.5, {x}]), lists:max([1, 2.5, 2]), lists:min([0.5, 0, 1]), lists:usort([1, 1.0, 2.0, 2]),
            lists:member(1.0, [1]), lists:keyfind(1.0, 1, [{1, a}]), lists:seq(1, trunc(3.7)), lists:sort(fun(A, B) -> A >= B end, [0.1, 5, 2.5])}.

errors() -> [tried(F) || F <- [fun() -> zero() / 0 end, fun() -> 1.0 / zero() end, fun() -> a() + 1.5 end, fun() -> 1.0e300 * big() end,
                               fun() -> trunc(a()) end, fun() -> float(a()) end, fun() -> -(a()) end]].

zero() -> hd([0]).
a() -> hd([a]).
big() -> hd([1.0e300]).

tried(F) -> try F() catch error:E -> E end.

met(1.5) -> one_and_a_half;
met(1) -> one;
met({1.5, X}) -> {in, X}.

maps() -> M = #{1 => int, 1.0 => float}, {maps:get(1, M), maps:get(1.0, M), map_size(M), maps:is_key(2.0, M), maps:get(1.0, M#{1.0 := new})}.

timed(F) ->
    self() ! {at, F},
    receive
        {at, X} when X > 2.5 -> X * 2
    end.
