%% A cache that watches who stored an entry, and drops it when its owner is gone.
-module(cache).
-export([main/0, cache/1, timer/1, owner/2]).

% -spec main() -> boolean().
main() ->
    Cache = spawn(?MODULE, cache, [[]]),
    Me = self(),
    spawn(?MODULE, owner, [Cache, Me]),
    receive stored -> ok end,
    fetch(Cache, key) =:= [1].

owner(Cache, Me) -> store(Cache, key, 1), Me ! stored.

cache(Entries) ->
    receive
        {store, Key, Value, Owner} ->
            Ref = monitor(process, Owner),
            Owner ! {stored, Key},
            cache([{Key, Value, Ref} | without(Key, Entries)]);
        {fetch, Key, From} ->
            From ! {found, of_key(Key, Entries)},
            cache(Entries);
        {'DOWN', Ref, process, _, _} ->
            cache(of_others(Ref, Entries))
    end.

of_key(_, []) -> [];
of_key(Key, [{K, V, _} | Rest]) when K =:= Key -> [V | of_key(Key, Rest)];
of_key(Key, [_ | Rest]) -> of_key(Key, Rest).

of_others(_, []) -> [];
of_others(Ref, [{K, V, R} | Rest]) when R =/= Ref -> [{K, V, R} | of_others(Ref, Rest)];
of_others(Ref, [_ | Rest]) -> of_others(Ref, Rest).

without(_, []) -> [];
without(Key, [{Key, _, _} | Rest]) -> Rest;
without(Key, [Entry | Rest]) -> [Entry | without(Key, Rest)].

% -spec store(pid(), atom(), term()) -> ok.
store(Cache, Key, Value) ->
    Cache ! {store, Key, Value, self()},
    receive {stored, Key} -> ok end.

% -spec fetch(pid(), atom()) -> [term()] | timeout.
fetch(Cache, Key) ->
    Cache ! {fetch, Key, self()},
    spawn(?MODULE, timer, [self()]),
    receive
        {found, Values} -> Values;
        timeout -> timeout
    end.

timer(P) -> P ! timeout.
