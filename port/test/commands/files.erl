%% Two processes count in a table of dets: each reads, adds one and writes.
-module(files).
-export([main/0, one/1]).

main() ->
    {ok, jobs} = dets:open_file(jobs, []),
    Me = self(),
    [spawn(?MODULE, one, [Me]) || _ <- [1, 2]],
    [receive done -> ok end || _ <- [1, 2]],
    [{n, 2}] = dets:lookup(jobs, n).

one(Me) ->
    {ok, jobs} = dets:open_file(jobs, []),
    N = case dets:lookup(jobs, n) of [{n, Before}] -> Before; [] -> 0 end,
    ok = dets:insert(jobs, {n, N + 1}),
    ok = dets:close(jobs),
    Me ! done.
