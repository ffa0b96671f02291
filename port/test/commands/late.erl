%% A call times out, and its answer comes later.
-module(late).
-export([main/0, init/1, handle_call/3, handle_cast/2]).

init(S) -> {ok, S}.
handle_call(slow, _, S) -> timer:sleep(40), {reply, slow, S};
handle_call(quick, _, S) -> {reply, quick, S}.
handle_cast(_, S) -> {noreply, S}.

main() ->
    {ok, A} = gen_server:start(?MODULE, [], []),
    quick = gen_server:call(A, quick, 10),
    R = try gen_server:call(A, slow, 10) catch exit:{timeout, _} -> given_up end,
    receive M -> {got, M} after 100 -> {R, nothing} end.
