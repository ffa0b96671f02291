-module(refused_no_root).
-export([f/1]).
f(X) -> X.
%% refused: 1: the first module exports no function without arguments; export one to begin with
