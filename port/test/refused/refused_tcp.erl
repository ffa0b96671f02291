-module(refused_tcp).
-export([main/0]).
main() -> {ok, L} = gen_tcp:listen(80, []), L.
%% refused: 3: gen_tcp:listen/2 speaks with the world outside; put a module of that name among the files, written with a process of your own
