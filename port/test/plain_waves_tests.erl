-module(plain_waves_tests).
-include("units.hrl").

%% What a range gives: the seeds below 10 and every 50th are left out, and each of Failing is found.
judge(Failing) ->
    fun(From, To) ->
        case [Seed || Seed <- lists:seq(From, To - 1), lists:member(Seed, Failing)] of
            [Seed | _] -> {found, Seed, <<>>, fails};
            [] -> {none, [Seed || Seed <- lists:seq(From, To - 1), Seed < 10 orelse Seed rem 50 =:= 0]}
        end
    end.

none_test() -> ?assertEqual({none, lists:seq(0, 9) ++ [50, 100, 150]}, plain_waves:first(0, 200, judge([]))).
nothing_to_judge_test() -> ?assertEqual({none, []}, plain_waves:first(7, 7, judge([7]))).
least_test() -> ?assertEqual({found, 61, <<>>, fails}, plain_waves:first(3, 500, judge([400, 61, 62, 300]))).
last_test() -> ?assertEqual({found, 499, <<>>, fails}, plain_waves:first(0, 500, judge([499]))).
beyond_test() -> ?assertEqual({none, [200]}, plain_waves:first(160, 210, judge([210]))).

%% What this process knows its ranges know.
known_test() ->
    put(known, here),
    ?assertEqual({found, 0, here, fails}, plain_waves:first(0, 1, fun(From, _) -> {found, From, get(known), fails} end)).
