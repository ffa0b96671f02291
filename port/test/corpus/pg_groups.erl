%% package: rabbitmq-server
%% modules: pg_local.beam
-module(pg_groups).
-export([main/0, race/0]).

main() ->
    {ok, _} = pg_local:start_link(),
    Other = spawn(fun() -> receive stop -> ok end end),
    [ok = pg_local:join(group, P) || P <- [self(), Other, self()]],
    ok = pg_local:sync(),
    Members = {length(pg_local:get_members(group)), pg_local:in_group(group, Other)},
    ok = pg_local:leave(group, self()),
    ok = pg_local:sync(),
    {Members, length(pg_local:get_members(group)), pg_local:get_members(none)}.

%% A group is asked for who has just left it, and may not know of it yet.
race() ->
    {ok, _} = pg_local:start_link(),
    ok = pg_local:join(group, self()),
    ok = pg_local:sync(),
    ok = pg_local:leave(group, self()),
    false = pg_local:in_group(group, self()).
