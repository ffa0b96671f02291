-module(refused_node).
-export([main/0]).
main() -> erlang:spawn_request(node(), fun() -> ok end, []).
%% refused: 3: erlang:spawn_request/3 is not translated; write it by functions that are (port/ENCODINGS.md)
