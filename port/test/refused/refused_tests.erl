-module(refused_tests).
-include_lib("eunit/include/eunit.hrl").
one_test() -> ?assertEqual(1, 1).
%% refused: 1: the module has tests of EUnit and no main; pulsefarm-erl eunit FOLDER hunts each, or name one by --root
