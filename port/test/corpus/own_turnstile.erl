%% A gate opens for who pays. It welcomes who comes first, and its welcome may come when somebody has paid.
-module(own_turnstile).
-behaviour(gen_statem).
-export([main/0, race/0, init/1, callback_mode/0, locked/3, open/3]).

main() ->
    {ok, Gate} = gen_statem:start_link(?MODULE, none, []),
    Paid = gen_statem:call(Gate, pay),
    {Paid, gen_statem:call(Gate, push), gen_statem:call(Gate, push)}.

race() ->
    {ok, Gate} = gen_statem:start_link(?MODULE, self(), []),
    spawn(fun() -> Gate ! welcome end),
    paid = gen_statem:call(Gate, pay),
    gen_statem:call(Gate, push).

init(Owner) -> {ok, locked, Owner}.
callback_mode() -> state_functions.

locked({call, From}, pay, Owner) -> {next_state, open, Owner, [{reply, From, paid}]};
locked({call, From}, push, Owner) -> {keep_state, Owner, [{reply, From, closed}]};
locked(info, welcome, Owner) -> {keep_state, Owner}.

open({call, From}, push, Owner) -> {next_state, locked, Owner, [{reply, From, passed}]}.
