-module(shop_door).
-behaviour(gen_statem).
-export([start_link/0, open/1, shut/1, enter/1, init/1, callback_mode/0, shut/3, open/3]).
start_link() -> gen_statem:start_link(?MODULE, [], []).
open(Door) -> gen_statem:cast(Door, open).
shut(Door) -> gen_statem:cast(Door, shut).
enter(Door) -> gen_statem:call(Door, enter).
callback_mode() -> state_functions.
init([]) -> {ok, shut, 0}.
shut(cast, open, N) -> {next_state, open, N};
shut({call, _}, enter, _) -> {keep_state_and_data, [postpone]};
shut(cast, _, _) -> keep_state_and_data.
open({call, From}, enter, N) -> {keep_state, N + 1, [{reply, From, N + 1}]};
open(cast, shut, N) -> {next_state, shut, N};
open(cast, _, _) -> keep_state_and_data.
