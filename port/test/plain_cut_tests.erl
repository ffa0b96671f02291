-module(plain_cut_tests).
-include("units.hrl").

%% The generator `g' of a module `m', cut.
cut(Body, Wanted) ->
    [_, Form] = plain_cut:forms([{attribute, 1, module, m}, function("g() -> " ++ Body ++ ".")], #{{m, g} => Wanted}),
    Form.

function(Text) ->
    {ok, Tokens, _} = erl_scan:string(Text),
    {ok, Form} = erl_parse:parse_form(Tokens),
    Form.

is(Wanted, Body, Paths) -> ?assertEqual(function("g() -> " ++ Wanted ++ "."), cut(Body, Paths)).

list_test() -> is("[other, fun b/0, other]", "[fun a/0, fun b/0, fun c/0]", [[2]]).

two_test() -> is("[fun a/0, other, fun c/0]", "[fun a/0, fun b/0, fun c/0]", [[3], [1]]).

titled_test() ->
    is("[{\"x\", [other, fun b/0]}, other]", "[{\"x\", [fun a/0, fun b/0]}, {<<\"y\">>, fun c/0}]", [[1, 2]]).

setup_test() ->
    is("{setup, fun s/0, fun c/1, fun(X) -> f(X), [other, {7, fun() -> X end}] end}",
       "{setup, fun s/0, fun c/1, fun(X) -> f(X), [fun a/0, {7, fun() -> X end}] end}", [[2]]).

foreach_test() ->
    is("{timeout, 9, {foreach, fun s/0, [other, fun(X) -> {\"x\", [fun a/0, other]} end]}}",
       "{timeout, 9, {foreach, fun s/0, [fun(X) -> fun b/0 end, fun(X) -> {\"x\", [fun a/0, fun b/0]} end]}}",
       [[2, 1]]).

with_test() -> is("{with, 3, [other, fun b/1]}", "{with, 3, [fun a/1, fun b/1]}", [[2]]).

%% What isn't seen to be a term stays.
called_test() ->
    is("[made(1), fun b/0, other | more()]", "[made(1), fun b/0, fun c/0 | more()]", [[2]]),
    is("made()", "made()", [[2]]),
    is("{setup, fun s/0, fun i/1}", "{setup, fun s/0, fun i/1}", [[2]]).

%% To list the tests their bodies aren't needed; what surrounds them is.
all_test() ->
    is("{setup, fun s/0, fun c/1, fun(X) -> [fun() -> ok end, {\"x\", {7, fun() -> ok end}}, made(X)] end}",
       "{setup, fun s/0, fun c/1, fun(X) -> [fun a/0, {\"x\", {7, fun() -> a(X) end}}, made(X)] end}", all),
    is("{spawn, fun() -> ok end}", "{spawn, fun m:a/0}", all).

others_test() ->
    Forms = [{attribute, 1, module, m}, function("h() -> [fun a/0, fun b/0].")],
    ?assertEqual(Forms, plain_cut:forms(Forms, #{{m, g} => [[1]]})),
    ?assertEqual(Forms, plain_cut:forms(Forms, #{{n, h} => [[1]]})).
