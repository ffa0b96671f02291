%% Two clients deposit into one account, at once.
-module(account).
-export([main/0]).

-spec main() -> boolean().
main() ->
    Account = spawn(fun() -> account(100) end),
    Clients = [spawn_monitor(fun() -> deposit(Account, N) end) || N <- [10, 5]],
    lists:foreach(fun({_, Ref}) -> wait(Ref) end, Clients),
    balance(Account) =:= 115.

account(Balance) ->
    receive
        {balance, From} ->
            From ! {balance, Balance},
            account(Balance);
        {set, New} ->
            account(New)
    end.

-spec deposit(pid(), integer()) -> any().
deposit(Account, N) ->
    Account ! {set, balance(Account) + N}.

balance(Account) ->
    Account ! {balance, self()},
    receive
        {balance, Balance} -> Balance
    after 1000 ->
        exit(no_answer)
    end.

wait(Ref) ->
    receive
        {'DOWN', Ref, process, _, normal} -> ok
    end.
