%% The same by generators of PropEr.
-module(stock_proper).
-include_lib("proper/include/proper.hrl").
-export([setup/0, cleanup/1, initial_state/0, command/1, precondition/2, next_state/3, postcondition/3]).

setup() -> stock:start(1).
cleanup(P) -> stock:stop(P).

initial_state() -> 1.
command(_) -> frequency([{2, {call, stock, take, []}}, {1, {call, stock, back, [range(1, 2)]}}]).
precondition(N, Call) -> stock_model:precondition(N, Call).
next_state(N, Result, Call) -> stock_model:next_state(N, Result, Call).
postcondition(N, Call, Result) -> stock_model:postcondition(N, Call, Result).
