-module(plain_time_tests).
-include("units.hrl").

%% The events of a run in which the ticker, which is the process 1, is asked for a tick, and answers as one of so many.
run(Among) ->
    #{events := Events} = plain_report:read([
        <<"0/1 <0> spawn <1>">>, <<"0/2 <0> register port@ticker <1>">>, <<"0/2 <0> spawn <2>">>,
        <<"0/3 <0> register port@clock <2>">>, <<"0/3 <1> wait">>, <<"1/2 <2>-><1> deliver message">>,
        <<"1/2 <1> receive <2>">>, <<"0/", Among/binary, " <1> send <2> tick">>]),
    Events.

passes_early_test() -> ?assertEqual(true, plain_time:early(run(<<"2">>))).

nobody_else_may_go_test() -> ?assertEqual(false, plain_time:early(run(<<"1">>))).

no_clock_test() -> ?assertEqual(false, plain_time:early([])).

last_test() -> ?assertEqual([["--last", "1"], []], [plain_time:last(Own) || Own <- [true, false]]).
