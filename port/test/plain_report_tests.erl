-module(plain_report_tests).
-include("units.hrl").

report() -> [<<"0/1 <0> spawn <1>">>, <<"1/2 <1>-><0> deliver message">>, <<"0/1 <0> end {badarg,[]}">>, <<"ended {badarg,[]}">>, <<"steps 9">>, <<"property fails">>].

read_test() ->
    #{events := [First, Second, Third], rest := Rest} = plain_report:read(report()),
    ?assertEqual(#{choice => 0, among => 1, subject => {turn, 0}, label => <<"spawn <1>">>}, First),
    ?assertEqual(#{choice => 1, among => 2, subject => {delivery, 1, 0}, label => <<"deliver message">>}, Second),
    ?assertEqual(<<"end {badarg,[]}">>, maps:get(label, Third)),
    ?assertEqual([<<"ended {badarg,[]}">>, <<"steps 9">>, <<"property fails">>], Rest).

choices_test() ->
    #{events := Events} = plain_report:read(report()),
    ?assertEqual([0, 1, 0], plain_report:choices(Events)).

ends_test() ->
    #{events := Events} = plain_report:read([<<"0/1 <0>-><4> deliver exit ends killed">> | report()]),
    ?assertEqual([{1, 4, <<"killed">>, {by, 0}}, {4, 0, <<"{badarg,[]}">>, own}], plain_answer:ends(Events)).

orderly_test_() ->
    [?_assertEqual(Orderly, plain_answer:orderly(Reason)) ||
        {Orderly, Reason} <- [{true, <<"normal">>}, {true, <<"shutdown">>}, {true, <<"{shutdown,{a,b}}">>}, {false, <<"{shutdown,a,b}">>},
                              {false, <<"{{shutdown,a},[]}">>}, {false, <<"killed">>}, {false, <<"{badarg,[]}">>}]].

%% A mark before each action and each end, and one at the beginning of a process; none where a process goes on that waited.
steps_test() ->
    Lines = [<<"0/1 <0> spawn <1>">>, <<"1/2 <1> wait">>, <<"0/1 <0> send <1> x">>, <<"1/2 <0>-><1> deliver message">>, <<"1/2 <1> receive x">>,
             <<"1/2 <1> end normal">>, <<"0/1 <0> raise badarg">>, <<"0/1 <0> end {badarg,[]}">>],
    #{events := Events} = plain_report:read(Lines),
    Kinds = [Kind || {Kind, _, _} <- plain_replay:steps(Events, [])],
    ?assertEqual([mark, event, start, mark, event, mark, event, event, event, mark, event, mark, event, event], Kinds).

unmarked_end_test() ->
    #{events := Events} = plain_report:read([<<"0/1 <0> end {function_clause,[]}">>]),
    ?assertEqual([event], [Kind || {Kind, _, _} <- plain_replay:steps(Events, [0])]).

same_but_for_places_test() ->
    Event = fun(Label) -> #{choice => 0, among => 1, subject => {turn, 0}, label => Label} end,
    ?assert(plain_replay:same(event, Event(<<"end {badarg,[]}">>), Event(<<"end {badarg,['@12']}">>))),
    ?assert(plain_replay:same(event, Event(<<"send <1> {'#fun',0,f@3,1}">>), Event(<<"send <1> {'#fun',0,f@9,1}">>))),
    ?assertNot(plain_replay:same(event, Event(<<"send <1> 1">>), Event(<<"send <1> 2">>))),
    ?assert(plain_replay:same(mark, Event(<<"send <1> 1">>), Event(<<"whereis '@3'">>))).

same_but_for_arguments_test() ->
    Event = fun(Label) -> #{choice => 0, among => 1, subject => {turn, 0}, label => Label} end,
    ?assert(plain_replay:same(event, Event(<<"end {function_clause,[]}">>), Event(<<"end {function_clause,['@12',{[97,']'],#Ref<3>,'x]'}]}">>))),
    ?assert(plain_replay:same(event, Event(<<"send <1> {{a,[]},{b,[]},c}">>), Event(<<"send <1> {{a,['@1',{}]},{b,['@2']},c}">>))),
    ?assertNot(plain_replay:same(event, Event(<<"send <1> {{a,[]},d}">>), Event(<<"send <1> {{a,['@1',{}]},c}">>))).

%% Who is left: neither the root, nor who ended, nor a service.
left_test() ->
    Lines = [<<"0/1 <0> spawn <1>">>, <<"0/1 <0> register port@clock <1>">>, <<"0/1 <0> spawn_link <2>">>, <<"0/1 <0> spawn_monitor <3> #Ref<4>">>, <<"0/1 <0> spawn <5>">>,
             <<"0/1 <3> end normal">>, <<"0/1 <0>-><5> deliver exit ends killed">>, <<"0/1 <2> wait">>, <<"0/1 <0> end normal">>],
    #{events := Events} = plain_report:read(Lines),
    ?assertEqual([2], plain_verdict:left(Events, [<<"finished ok">>])),
    ?assertEqual([], plain_verdict:left(Events, [<<"ended killed">>])).
