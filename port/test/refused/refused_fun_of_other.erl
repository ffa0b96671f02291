-module(refused_fun_of_other).
-export([main/0]).
main() -> F = fun a_module_that_is_missing:f/1, F(1).
%% refused: 3: fun a_module_that_is_missing:f/1: no such function is known; name its file as one more
