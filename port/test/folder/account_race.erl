%% Two scenarios of an account: one deposit holds, two at once are a race.
-module(account_race).
-export([one_test/0, two_race/0, deposit/1, helper/0]).

one_test() ->
    A = account:start(),
    deposit(A),
    1 = account:read(A).

two_race() ->
    A = account:start(),
    Clients = [spawn_monitor(fun() -> deposit(A) end) || _ <- [1, 2]],
    [receive {'DOWN', M, process, P, _} -> ok end || {P, M} <- Clients],
    2 = account:read(A).

deposit(A) -> account:write(A, account:read(A) + 1).

helper() -> exit(no_root).
