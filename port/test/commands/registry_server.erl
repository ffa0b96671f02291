%% A server that is asked first and informed then.
-module(registry_server).
-behaviour(gen_server).
-export([start_link/0, take/1, init/1, handle_call/3, handle_cast/2]).

start_link() -> gen_server:start_link({local, ?MODULE}, ?MODULE, [], []).
take(Name) ->
    case gen_server:call(?MODULE, {free, Name}) of
        true -> gen_server:call(?MODULE, {take, Name, self()});
        false -> taken
    end.

init([]) -> {ok, #{}}.
handle_call({free, Name}, _From, Names) -> {reply, not maps:is_key(Name, Names), Names};
handle_call({take, Name, Pid}, _From, Names) -> {reply, yours, Names#{Name => Pid}}.
handle_cast(_, Names) -> {noreply, Names}.
