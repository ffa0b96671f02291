-module(plain_words_back_tests).
-include("units.hrl").

names() -> #{'main@3' => {user, "src/a.erl", 12, {'fun', {a, main, 0}}}}.

back(Text) -> plain_words_back:line(Text, names()).

map_test() -> ?assertEqual(<<"send <1> {k,#{a => 1,b => [#{}]}}">>, back(<<"send <1> {k,{'#map',[{a,1},{b,[{'#map',[]}]}]}}">>)).
binary_test() -> ?assertEqual(<<"receive <<\"ab\">>">>, back(<<"receive {'#bin',[97,98]}">>)).
other_binary_test() -> ?assertEqual(<<"<<1,255>>">>, back(<<"{'#bin',[1,255]}">>)).
fun_test() -> ?assertEqual(<<"{run,#Fun<a:main/0 a.erl:12>}">>, back(<<"{run,{'#fun',1,main@3,{'#fun',0,'a:f/0'}}}">>)).
remote_fun_test() -> ?assertEqual(<<"fun a:f/0">>, back(<<"{'#fun',0,'a:f/0'}">>)).
service_test() -> ?assertEqual(<<"register <ets> <1>">>, back(<<"register port@ets <1>">>)).
nothing_to_turn_test() -> ?assertEqual(<<"0/1 <0> send <2> {'$gen_call',{<0>,#Ref<3>},-4}">>, back(<<"0/1 <0> send <2> {'$gen_call',{<0>,#Ref<3>},-4}">>)).
quoted_test() -> ?assertEqual(<<"end {'it''s',port}">>, back(<<"end {'it''s',port}">>)).
escaped_quote_test() -> ?assertEqual(<<"'a\\'{b' x">>, back(<<"'a\\'{b' x">>)).
size_test() ->
    ?assertEqual(2, plain_words_back:size(<<"{shutdown,{a,b}}">>)),
    ?assertEqual(0, plain_words_back:size(<<"shutdown">>)).
text_test() -> ?assertEqual(<<"end {expected,\"a \\\"b\\\"\",[1,2,3],[97,98]}">>, back(<<"end {expected,[97,32,34,98,34],[1,2,3],[97,98]}">>)).
