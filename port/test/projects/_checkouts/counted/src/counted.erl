-module(counted).
-behaviour(gen_server).
-export([start_link/1, value/0, set/1, init/1, handle_call/3, handle_cast/2]).

start_link(First) -> gen_server:start_link({local, counted}, ?MODULE, First, []).

value() -> gen_server:call(counted, value).

set(Value) -> gen_server:call(counted, {set, Value}).

init(First) -> {ok, First}.

handle_call(value, _From, Value) -> {reply, Value, Value};
handle_call({set, Value}, _From, _) -> {reply, ok, Value}.

handle_cast(_, Value) -> {noreply, Value}.
