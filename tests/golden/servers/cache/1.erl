%% A cache that watches who stored an entry, and drops it when its owner is gone.
-module(cache).
-export([main/0, cache/1, timer/1]).

% -spec main() -> boolean().
main() ->
    Cache = spawn(?MODULE, cache, [[]]),
    Me = self(),
    spawn(fun() -> store(Cache, key, 1), Me ! stored end),
    receive stored -> ok end,
    fetch(Cache, key) =:= [1].

cache(Entries) ->
    receive
        {store, Key, Value, Owner} ->
            Ref = monitor(process, Owner),
            Owner ! {stored, Key},
            cache([{Key, Value, Ref} | without(Key, Entries)]);
        {fetch, Key, From} ->
            From ! {found, [V || {K, V, _} <- Entries, K =:= Key]},
            cache(Entries);
        {'DOWN', Ref, process, _, _} ->
            cache(lists:filter(fun({_, _, R}) -> R =/= Ref end, Entries))
    end.

without(_, []) -> [];
without(Key, [{Key, _, _} | Rest]) -> Rest;
without(Key, [Entry | Rest]) -> [Entry | without(Key, Rest)].

% -spec store(pid(), atom(), term()) -> ok.
store(Cache, Key, Value) ->
    Cache ! {store, Key, Value, self()},
    receive {stored, Key} -> ok end.

% -spec fetch(pid(), atom()) -> [term()] | timeout.
fetch(Cache, Key) ->
    Cache ! {fetch, Key, self()},
    spawn(?MODULE, timer, [self()]),
    receive
        {found, Values} -> Values;
        timeout -> timeout
    end.

timer(P) -> P ! timeout.
