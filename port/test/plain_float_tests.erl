-module(plain_float_tests).
-include("units.hrl").

-define(FLOATS, [0.0, 1.0, -1.0, 0.1, -2.5e-3, 4.9e-324, 1.7976931348623157e308, -1.0e-300]).

back_test() -> ?assertEqual(?FLOATS, [plain_float:value(plain_float:key(F)) || F <- ?FLOATS]).

%% The order of floats is that of their numbers.
order_test() ->
    Sorted = lists:sort(?FLOATS),
    ?assertEqual(Sorted, [F || {_, F} <- lists:sort([{plain_float:key(F), F} || F <- ?FLOATS])]).

one_zero_test() -> ?assertEqual(plain_float:key(0.0), plain_float:key(-0.0)).

shown_test() ->
    Label = iolist_to_binary(io_lib:format("send <1> {at,{'#float',~w}}", [plain_float:key(2.75)])),
    ?assertEqual(<<"send <1> {at,2.75}">>, iolist_to_binary(plain_words_back:line(Label, #{}))).
