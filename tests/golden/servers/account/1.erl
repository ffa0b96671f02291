%% Two clients deposit into one account, at once.
-module(account).
-export([main/0, timer/1]).

% -spec main() -> boolean().
main() ->
    Account = spawn(fun() -> account(100) end),
    Clients = [spawn_monitor(fun() -> deposit(Account, N) end) || N <- [10, 5]],
    wait_all(Clients),
    balance(Account) =:= 115.

wait_all([]) -> ok;
wait_all([{_, Ref} | Rest]) -> wait(Ref), wait_all(Rest).

account(Balance) ->
    receive
        {balance, From} ->
            From ! {balance, Balance},
            account(Balance);
        {set, New} ->
            account(New)
    end.

% -spec deposit(pid(), integer()) -> any().
deposit(Account, N) ->
    Account ! {set, balance(Account) + N}.

balance(Account) ->
    Account ! {balance, self()},
    spawn(?MODULE, timer, [self()]),
    receive
        {balance, Balance} -> Balance;
        timeout -> exit(no_answer)
    end.

timer(P) -> P ! timeout.

wait(Ref) ->
    receive
        {'DOWN', Ref, process, _, normal} -> ok
    end.
