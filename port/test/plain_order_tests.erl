-module(plain_order_tests).
-include("units.hrl").

events(Lines) ->
    #{events := Events} = plain_report:read(Lines),
    Events.

%% Two processes in turn; each goes on by itself in the other order, in which the choices are those of who may go then.
run() ->
    events([<<"0/1 <0> spawn <1>">>, <<"0/2 <0> send <1> a">>, <<"1/3 <1> wait">>, <<"0/2 <0> send <1> b">>, <<"1/2 <0>-><1> deliver message">>,
            <<"0/3 <0> wait">>, <<"0/2 <1> receive a">>, <<"1/2 <0>-><1> deliver message">>, <<"0/1 <1> receive b">>, <<"0/1 <1> end normal">>]).

switches_test() -> ?assertEqual(4, plain_order:switches(run())).

fewer_switches_test() -> ?assertEqual({ok, [0, 0, 0, 0, 0, 0, 0, 1, 0, 0]}, plain_order:fewer_switches(run())).

%% Where the choices aren't those that the labels give nothing is reported.
unknown_test() -> ?assertEqual(unknown, plain_order:fewer_switches(events([<<"0/1 <0> spawn <1>">>, <<"0/2 <1> wait">>]))).

none_test() -> ?assertEqual(unknown, plain_order:fewer_switches([])).
