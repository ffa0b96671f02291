-module(refused_os).
-export([main/0]).
main() -> os:cmd("ls").
%% refused: 3: os:cmd/1 speaks with the world outside; put a module of that name among the files, written with a process of your own
