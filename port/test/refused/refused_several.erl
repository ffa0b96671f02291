-module(refused_several).
-export([main/0]).
main() ->
    X = ets:internal_request_all(),
    f(),
    halt(X).
f() -> qlc:info(t).
%% refused: 4: ets:internal_request_all/0 is not among the functions of ets that the library has (port/ENCODINGS.md); take insert, lookup, delete, match_object, select
%% refused: 6: erlang:halt/1 ends the node, which the profile can't; let the process end by exit/1
%% refused: 7: qlc:info/1 is a query that is made at run time; evaluate a handle of a table, or take match_object or select of ets
