%% Queries of qlc by list comprehension: each is the same on erl and in every run of the tool. The order of a table that
%% has none is left out.
-module(facts_of_comprehensions).
-export([main/0]).
-include_lib("stdlib/include/qlc.hrl").

main() ->
    T = ets:new(t, [ordered_set]),
    S = ets:new(s, []),
    ets:insert(T, [{1, a}, {2, b}, {3, c}, {4, a}]),
    ets:insert(S, [{a, x}, {b, y}]),
    Q = qlc:q([{V, K} || {K, V} <- ets:table(T), K > 1]),
    N = 3,
    Values = [qlc:e(Q), qlc:e(qlc:q([V || {V, _} <- Q])), qlc:e(qlc:q([V || {V, _} <- Q], unique)), qlc:e(qlc:q([V || {_, V} <- ets:table(T)], [{unique, true}, {cache, ets}])),
              lists:sort(qlc:e(qlc:q([{K, X} || {K, V} <- ets:table(T), {W, X} <- ets:table(S), V =:= W]))), qlc:e(qlc:q([X || X <- [3, 1, N, 2], X < N])),
              qlc:e(qlc:sort(qlc:q([K * N || {K, _} <- ets:table(T)]), {order, descending})), qlc:fold(fun(X, A) -> X + A end, 0, qlc:q([K || {K, a} <- ets:table(T)])),
              qlc:e(qlc:append(qlc:q([K || {K, c} <- ets:table(T)]), [z])), qlc:e(qlc:q([length(qlc:e(qlc:q([Y || {Y, W} <- ets:table(S), W =:= Z]))) || Z <- [x, z]])),
              element(1, Q)],
    ets:insert(T, {5, e}),
    Values ++ [qlc:e(Q), t(fun() -> qlc:q([X || X <- [1]], [x]) end), t(fun() -> qlc:e(qlc:q([X || X <- none()])) end),
               t(fun() -> qlc:e(qlc:q([X || {X, _} <- ets:table(nothing)])) end)].

none() -> none.

t(F) -> try F() of V -> V catch C:R -> {C, R} end.
