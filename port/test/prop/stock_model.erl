%% The state machine of a stock: its state is how many are left. Commands are drawn from a list, so PropEr isn't needed.
-module(stock_model).
-export([setup/0, cleanup/1, initial_state/0, command/1, precondition/2, next_state/3, postcondition/3]).

setup() -> stock:start(1).
cleanup(P) -> stock:stop(P).

initial_state() -> 1.
command(_) -> [{call, stock, take, []}, {call, stock, take, []}, {call, stock, back, [1]}].
precondition(N, {call, stock, back, _}) -> N < 3;
precondition(_, _) -> true.
next_state(0, _, {call, stock, take, []}) -> 0;
next_state(N, _, {call, stock, take, []}) -> N - 1;
next_state(N, _, {call, stock, back, [M]}) -> N + M.
postcondition(0, {call, stock, take, []}, Result) -> Result =:= sold_out;
postcondition(_, {call, stock, take, []}, Result) -> Result =:= <<"one">>;
postcondition(_, {call, stock, back, _}, {ok, P}) -> is_pid(P).
