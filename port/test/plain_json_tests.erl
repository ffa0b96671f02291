-module(plain_json_tests).
-include("units.hrl").

object(Line) -> unicode:characters_to_binary(plain_json:object(plain_json:of_line(Line))).

%% Each row is one of docs/JSON.md.
rows_test_() ->
    [?_assertEqual(Object, object(Line)) || {Line, Object} <-
        [{<<"finished 7">>, <<"{\"finished\":7}">>},
         {<<"finished {a,7}">>, <<"{\"finished\":\"{a,7}\"}">>},
         {<<"ended badarg">>, <<"{\"ended\":\"badarg\"}">>},
         {<<"deadlock <0> <1>">>, <<"{\"deadlock\":\"<0> <1>\"}">>},
         {<<"limit">>, <<"{\"limit\":true}">>},
         {<<"memory">>, <<"{\"memory\":true}">>},
         {<<"steps 98">>, <<"{\"steps\":98}">>},
         {<<"property holds">>, <<"{\"property\":\"holds\"}">>},
         {<<"no verdict">>, <<"{\"property\":\"no verdict\"}">>},
         {<<"seed 17">>, <<"{\"seed\":17}">>},
         {<<"seed 18446744073709551615">>, <<"{\"seed\":\"18446744073709551615\"}">>},
         {<<"strategy pos">>, <<"{\"strategy\":\"pos\"}">>},
         {<<"schedule 0,2,1">>, <<"{\"schedule\":\"0,2,1\"}">>},
         {<<"schedule 0">>, <<"{\"schedule\":\"0\"}">>},
         {<<"schedule none">>, <<"{\"schedule\":\"none\"}">>},
         {<<"complete">>, <<"{\"complete\":true}">>},
         {<<"no failure in 200 seeds">>, <<"{\"failure\":false,\"seeds\":200}">>},
         {<<"stopped after 512 seeds">>, <<"{\"stopped\":true,\"seeds\":512}">>},
         {<<"holds 9 seeds, least 0: finished ok">>, <<"{\"property\":\"holds\",\"seeds\":9,\"least\":0,\"finished\":\"ok\"}">>},
         {<<"fails 2 seeds, least 4: deadlock <0>">>, <<"{\"property\":\"fails\",\"seeds\":2,\"least\":4,\"deadlock\":\"<0>\"}">>},
         {<<"no verdict 1 seeds, least 7: memory">>, <<"{\"property\":\"no verdict\",\"seeds\":1,\"least\":7,\"memory\":true}">>},
         {<<"ok">>, <<"{\"ok\":true}">>},
         {<<"E6 at 41">>, <<"{\"refusal\":\"E6\",\"at\":41}">>},
         {<<"B2">>, <<"{\"refusal\":\"B2\"}">>},
         {<<"NoMemory">>, <<"{\"NoMemory\":true}">>}]].

numbers_test_() ->
    [?_assertEqual(Object, object(Line)) || {Line, Object} <-
        [{<<"finished -7">>, <<"{\"finished\":\"-7\"}">>},
         {<<"finished 07">>, <<"{\"finished\":\"07\"}">>},
         {<<"finished 9007199254740991">>, <<"{\"finished\":9007199254740991}">>},
         {<<"finished 9007199254740992">>, <<"{\"finished\":\"9007199254740992\"}">>}]].

escaped_test() ->
    ?assertEqual(<<"{\"a\":\"x\\\"\\\\\\n\\t\\u0001\",\"b\":{\"c\":false}}">>,
                 unicode:characters_to_binary(plain_json:object([{a, [$x, $", $\\, $\n, $\t, 1]}, {b, {object, [{c, false}]}}]))).

other_characters_test() -> ?assertEqual(<<"{\"a\":\"", 195, 182, "\"}">>, unicode:characters_to_binary(plain_json:object([{a, <<195, 182>>}]))).

place_test() ->
    ?assertEqual(<<"{\"file\":\"src/a.erl\",\"line\":3,\"function\":\"a:f/1\"}">>, unicode:characters_to_binary(plain_json:object(plain_json:place({user, "src/a.erl", 3, {a, f, 1}})))),
    ?assertEqual([{library, "lists"}], plain_json:place({otp, "lists.erl", 3, {lists, map, 2}})),
    ?assertEqual([], plain_json:place(none)).
