%% Two clients deposit into one account, at once.
-module(account).
-export([main/0, timer/1, account/1, deposit/2]).

% -spec main() -> boolean().
main() ->
    Account = spawn(?MODULE, account, [100]),
    Clients = clients(Account, [10, 5]),
    wait_all(Clients),
    balance(Account) =:= 115.

clients(_, []) -> [];
clients(Account, [N | Rest]) -> [spawn_monitor(?MODULE, deposit, [Account, N]) | clients(Account, Rest)].

wait_all([]) -> ok;
wait_all([{_, Ref} | Rest]) -> wait(Ref), wait_all(Rest).

account(Balance) ->
    receive
        {balance, From} ->
            From ! {balance, Balance},
            account(Balance);
        {set, New} ->
            account(New)
    end.

% -spec deposit(pid(), integer()) -> any().
deposit(Account, N) ->
    Account ! {set, balance(Account) + N}.

balance(Account) ->
    Account ! {balance, self()},
    spawn(?MODULE, timer, [self()]),
    receive
        {balance, Balance} -> Balance;
        timeout -> exit(no_answer)
    end.

timer(P) -> P ! timeout.

wait(Ref) ->
    receive
        {'DOWN', Ref, process, _, normal} -> ok
    end.
