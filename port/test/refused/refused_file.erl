-module(refused_file).
-export([main/0]).
main() -> file:read_file("x").
%% refused: 3: file:read_file/1 speaks with the world outside; put a module of that name among the files, written with a process of your own
