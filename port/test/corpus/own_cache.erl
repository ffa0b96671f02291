%% A cache that reads through: who finds nothing loads, and its slow load overwrites what was stored meanwhile.
-module(own_cache).
-behaviour(gen_server).
-export([main/0, race/0, init/1, handle_call/3, handle_cast/2]).

main() ->
    started(),
    One = read(k),
    store(k, new),
    {One, read(k)}.

race() ->
    started(),
    {Reader, Monitor} = spawn_monitor(fun() -> read(k) end),
    store(k, new),
    receive {'DOWN', Monitor, process, Reader, normal} -> ok end,
    new = read(k).

started() ->
    cache = ets:new(cache, [named_table, public]),
    {ok, _} = gen_server:start_link({local, base}, ?MODULE, #{k => old}, []),
    ok.

read(Key) ->
    case ets:lookup(cache, Key) of
        [{_, Value}] -> Value;
        [] ->
            Value = gen_server:call(base, {load, Key}, 5000),
            ets:insert(cache, {Key, Value}),
            Value
    end.

store(Key, Value) ->
    ok = gen_server:call(base, {store, Key, Value}),
    ets:insert(cache, {Key, Value}).

init(Rows) -> {ok, Rows}.
handle_call({load, Key}, _, Rows) -> {reply, maps:get(Key, Rows), Rows};
handle_call({store, Key, Value}, _, Rows) -> {reply, ok, Rows#{Key := Value}}.
handle_cast(_, Rows) -> {noreply, Rows}.
