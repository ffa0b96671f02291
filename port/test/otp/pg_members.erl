%% A member of a process group ends, and who learns of it by a monitor asks for the members.
%% modules: kernel/src/pg.erl
-module(pg_members).
-export([main/0, race/0]).

main() -> gone(fun none_left/0).
race() -> gone(fun() -> [] = pg:get_members(group), ok end).

gone(Ask) ->
    {ok, _} = pg:start_link(),
    Me = self(),
    Member = spawn(fun() -> ok = pg:join(group, self()), Me ! joined, receive stop -> ok end end),
    receive joined -> ok end,
    [Member] = pg:get_members(group),
    Monitor = monitor(process, Member),
    Member ! stop,
    receive {'DOWN', Monitor, process, Member, normal} -> ok end,
    Ask().

none_left() ->
    case pg:get_members(group) of
        [] -> ok;
        [_] -> none_left()
    end.
