%% Mails go out in batches of two, or when the first of a batch has waited 20 ms. The time of a batch that is full is
%% cancelled, but what it has sent by then is taken for the time of the next one.
-module(own_mailer).
-behaviour(gen_server).
-export([main/0, race/0, init/1, handle_call/3, handle_cast/2, handle_info/2]).

main() ->
    {ok, S} = gen_server:start_link(?MODULE, [], []),
    [gen_server:cast(S, {mail, M}) || M <- [one, two, three]],
    timer:sleep(50),
    gen_server:call(S, batches).

race() ->
    {ok, S} = gen_server:start_link(?MODULE, [], []),
    gen_server:cast(S, {mail, one}),
    timer:sleep(20),
    gen_server:cast(S, {mail, two}),
    gen_server:cast(S, {mail, three}),
    timer:sleep(10),
    gen_server:cast(S, {mail, four}),
    timer:sleep(50),
    case gen_server:call(S, batches) of
        [[one, two], [three, four]] -> ok;
        [[one], [two, three], [four]] -> ok
    end.

init([]) -> {ok, {[], [], none}}.

handle_call(batches, _, {_, Sent, _} = S) -> {reply, lists:reverse(Sent), S}.

handle_cast({mail, M}, {[], Sent, none}) -> {noreply, {[M], Sent, erlang:send_after(20, self(), over)}};
handle_cast({mail, M}, {[First], Sent, Timer}) ->
    erlang:cancel_timer(Timer),
    {noreply, {[], [[First, M] | Sent], none}}.

handle_info(over, {[], Sent, none}) -> {noreply, {[], Sent, none}};
handle_info(over, {[First], Sent, _}) -> {noreply, {[], [[First] | Sent], none}}.
