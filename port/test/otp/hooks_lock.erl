%% Clients take the lock of common_test's hooks; one of them ends while it holds it. In the race the lock is stopped meanwhile.
%% modules: common_test/src/ct_hooks_lock.erl ct_util.erl
-module(hooks_lock).
-export([main/0, race/0]).

main() ->
    {ok, _} = ct_hooks_lock:start(hooks),
    Inside = atomics:new(1, []),
    Clients = [spawn_monitor(fun() -> client(Inside, Leaves) end) || Leaves <- [released, ended]],
    [receive {'DOWN', Monitor, process, Pid, normal} -> ok end || {Pid, Monitor} <- Clients],
    ct_hooks_lock:stop(hooks).

client(Inside, Leaves) ->
    locked = ct_hooks_lock:request(),
    1 = atomics:add_get(Inside, 1, 1),
    ok = atomics:sub(Inside, 1, 1),
    Leaves =:= ended orelse (unlocked = ct_hooks_lock:release()).

race() ->
    {ok, _} = ct_hooks_lock:start(hooks),
    Me = self(),
    spawn(fun() -> Me ! {answer, ct_hooks_lock:request()} end),
    stopped = ct_hooks_lock:stop(hooks),
    receive {answer, Answer} -> Answer end.
