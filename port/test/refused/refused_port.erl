-module(refused_port).
-export([main/0]).
main() -> open_port({spawn, "ls"}, []).
%% refused: 3: erlang:open_port/2 speaks with the world outside, which the profile can't; put a process of your own in its place
