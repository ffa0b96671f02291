-module(refused_other_module).
-export([main/0]).
main() -> a_module_that_is_missing:f(1).
%% refused: 3: a_module_that_is_missing:f/1 is not known, and its source is not among the files; name it as one more file
