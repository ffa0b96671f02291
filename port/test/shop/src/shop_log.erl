-module(shop_log).
-behaviour(gen_server).
-include("shop.hrl").
-export([start_link/0, note/1, notes/0, init/1, handle_call/3, handle_cast/2]).
start_link() -> gen_server:start_link({local, ?MODULE}, ?MODULE, [], []).
note(What) -> gen_server:cast(?MODULE, {note, What}).
notes() -> [What || {_, What} <- gen_server:call(?MODULE, notes)].
init([]) -> {ok, ets:new(?TABLE, [ordered_set])}.
handle_call(notes, _From, Table) -> {reply, ets:tab2list(Table), Table}.
handle_cast({note, What}, Table) -> ets:insert(Table, {ets:info(Table, size), What}), {noreply, Table}.
