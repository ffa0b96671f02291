%% A cache that watches who stored an entry, and drops it when its owner is gone.
-module(cache).
-export([main/0]).

-spec main() -> boolean().
main() ->
    Cache = spawn(fun() -> cache([]) end),
    Me = self(),
    spawn(fun() -> store(Cache, key, 1), Me ! stored end),
    receive stored -> ok end,
    fetch(Cache, key) =:= [1].

cache(Entries) ->
    receive
        {store, Key, Value, Owner} ->
            Ref = monitor(process, Owner),
            Owner ! {stored, Key},
            cache([{Key, Value, Ref} | lists:keydelete(Key, 1, Entries)]);
        {fetch, Key, From} ->
            From ! {found, [V || {K, V, _} <- Entries, K =:= Key]},
            cache(Entries);
        {'DOWN', Ref, process, _, _} ->
            cache(lists:filter(fun({_, _, R}) -> R =/= Ref end, Entries))
    end.

-spec store(pid(), atom(), term()) -> ok.
store(Cache, Key, Value) ->
    Cache ! {store, Key, Value, self()},
    receive {stored, Key} -> ok end.

-spec fetch(pid(), atom()) -> [term()] | timeout.
fetch(Cache, Key) ->
    Cache ! {fetch, Key, self()},
    receive
        {found, Values} -> Values
    after 5000 ->
        timeout
    end.
