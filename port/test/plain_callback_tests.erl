-module(plain_callback_tests).
-include("units.hrl").

-define(BANK, checks:folder("../examples/bank.erl")).

place(Role, Message) ->
    plain_callback:place(Role, Message, #{marks => #{1 => {user, ?BANK, 9, {bank, balance, 1}}}}).

call_test() ->
    ?assertEqual({only, {user, ?BANK, 19, {bank, handle_call, 3}}}, place("gen_server bank", <<"{'$gen_call',{<4>,#Ref<7>},{balance,alice}}">>)).

other_test() ->
    ?assertEqual(none, place("a fun of bank:main/0", <<"{'$gen_call',{<4>,#Ref<7>},{balance,alice}}">>)),
    ?assertEqual(none, place("gen_server bank", <<"{system,{<0>,#Ref<1>},{terminate,normal}}">>)),
    ?assertEqual(none, place(unknown, <<"x">>)).
