%% Times in each unit, and whole dictionaries.
-module(units_of_time).
-export([main/0]).

main() ->
    timer:sleep(20),
    Units = [second, millisecond, microsecond, nanosecond, native, seconds, milli_seconds, micro_seconds, nano_seconds, 1, 50, 1000, 3000000],
    {[near(fun erlang:monotonic_time/1, U) || U <- Units], [near(fun erlang:system_time/1, U) || U <- Units], [near(fun os:system_time/1, U) || U <- Units],
     [tried(fun() -> erlang:F(U) end) || F <- [monotonic_time, system_time, time_offset], U <- [minute, 0, "x", -5]], dictionaries()}.

%% within ten seconds of what it is in milliseconds
near(F, U) -> abs(erlang:convert_time_unit(F(U), U, millisecond) - F(millisecond)) < 10000.

tried(F) -> try F() catch C:R -> {C, R} end.

dictionaries() ->
    erase(),
    put(a, 1),
    put(b, 2),
    put(c, 1),
    {lists:sort(get_keys()), lists:sort(get_keys(1)), get_keys(9), lists:sort(erase()), get(), get_keys()}.
