%% Three clients of a table of dets, by the sources of dets itself.
-module(three_clients).
-behaviour(supervisor).
-export([main/0, init/1]).

main() ->
    {ok, _} = supervisor:start_link({local, kernel_safe_sup}, ?MODULE, []),
    {ok, T} = dets:open_file(dets_table, [{type, bag}]),
    Clients = [spawn_monitor(fun() -> client(T, N) end) || N <- [1, 2, 3]],
    [receive {'DOWN', M, process, P, _} -> ok end || {P, M} <- Clients],
    dets:close(T).

client(T, N) ->
    dets:insert(T, [{a, N}]),
    dets:open_file(dets_table, [{type, bag}]),
    dets:lookup(T, a).

init([]) -> {ok, {{one_for_one, 1, 5}, []}}.
