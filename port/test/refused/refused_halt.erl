-module(refused_halt).
-export([main/0]).
main() -> halt().
%% refused: 3: erlang:halt/0 ends the node, which the profile can't; let the process end by exit/1
