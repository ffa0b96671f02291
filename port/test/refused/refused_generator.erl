-module(refused_generator).
-export([all_test_/0]).
all_test_() -> [fun() -> ok end].
%% refused: 1: all_test_/0 makes tests and runs none of them; pulsefarm-erl eunit FOLDER hunts each
