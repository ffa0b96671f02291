%% ets:i, which prints and asks at a terminal whose input is at its end: each is the same on erl and in every run of the
%% tool.
-module(facts_of_shown_tables).
-export([main/0]).

main() ->
    E = ets:new(e, []),
    T = ets:new(t, [public]),
    ets:insert(T, [{1, a}, {2, b}]),
    [t(fun() -> ets:i() end), t(fun() -> ets:i(T) end), t(fun() -> ets:i(E) end), t(fun() -> ets:i(T, 1) end), t(fun() -> ets:i(T, x, 20) end),
     t(fun() -> ets:i(T, 2, y) end), t(fun() -> ets:i(T, 1, y) end), t(fun() -> ets:i(T, x, {}) end), t(fun() -> ets:i(E, x, y) end), t(fun() -> ets:i(nothing) end),
     t(fun() -> ets:i(nothing, 3) end), t(fun() -> ets:i(T, 3, 10) end), t(fun() -> ets:i(T, 40, 80.5) end), t(fun() -> ets:i(T, 40, 12) end), t(fun() -> ets:i(T, 40, 13) end)].

t(F) -> try F() of V -> V catch C:R -> {C, R} end.
