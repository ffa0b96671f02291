-module(refused_pid_text).
-export([main/0]).
main() -> pid_to_list(self()).
%% refused: 3: erlang:pid_to_list/1 prints what has no fixed name; pass the term itself
