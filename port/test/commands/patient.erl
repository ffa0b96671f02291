%% Times of seconds that seldom pass while others go on.
-module(patient).
-behaviour(gen_server).
-export([main/0, init/1, handle_call/3, handle_cast/2]).
init([]) -> {ok, 0}.
handle_cast(_, S) -> {noreply, S}.
handle_call(work, _, S) -> {reply, lists:sum(lists:seq(1, 20)), S + 1}.
main() ->
    {ok, P} = gen_server:start_link(?MODULE, [], []),
    Me = self(),
    [spawn(fun() -> Me ! {done, I, catch gen_server:call(P, work, 4000)} end) || I <- [1, 2, 3]],
    Rs = [receive {done, I, R} -> R after 5000 -> timeout end || I <- [1, 2, 3]],
    [210, 210, 210] = Rs.
