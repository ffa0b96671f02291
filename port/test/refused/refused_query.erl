-module(refused_query).
-export([main/0]).
main() ->
    T = ets:new(t, []),
    Q = ets:table(T),
    _ = qlc:string_to_handle("[1]."),
    qlc:info(Q).
%% refused: 6: qlc:string_to_handle/1 is a query that is made at run time; evaluate a handle of a table, or take match_object or select of ets
%% refused: 7: qlc:info/1 is a query that is made at run time; evaluate a handle of a table, or take match_object or select of ets
