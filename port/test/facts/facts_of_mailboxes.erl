%% What a process may know of mailboxes, links, monitors and the flag of others where all rest: each is the same on erl
%% and in every run of the tool.
-module(facts_of_mailboxes).
-behaviour(gen_server).
-export([main/0, init/1, handle_call/3, handle_cast/2]).

init(P) -> {ok, P}.
handle_call(hold, _, P) -> P ! held, receive go_on -> {reply, gone_on, P} end.
handle_cast(_, P) -> {noreply, P}.

main() ->
    process_flag(trap_exit, true),
    own() ++ of_another() ++ of_a_server() ++ ties() ++ named() ++ errors().

%% messages stay as they are, in their order
own() ->
    Me = self(),
    [Me ! M || M <- [a, {b, 1}, "c", a]],
    Seen = [process_info(Me, message_queue_len), process_info(Me, messages), process_info(Me, [messages, message_queue_len])],
    Seen ++ [receive M -> M end || _ <- [1, 2, 3, 4]] ++ [process_info(Me, message_queue_len)].

of_another() ->
    Me = self(),
    P = spawn(fun() -> receive go -> ok end, Me ! [receive M -> M end || _ <- [1, 2]], receive stop -> ok after 5000 -> late end end),
    P ! one,
    P ! #{two => 2},
    Before = [process_info(P, message_queue_len), process_info(P, [status, messages])],
    P ! go,
    Got = receive L when is_list(L) -> L end,
    timer:sleep(1),
    Timed = process_info(P, messages),
    P ! stop,
    timer:sleep(1),
    Before ++ [Got, Timed, process_info(P, messages), process_info(P, [])].

%% a server that is in a call has the rest in its mailbox
of_a_server() ->
    Me = self(),
    {ok, S} = gen_server:start(?MODULE, Me, []),
    C = spawn(fun() -> Me ! gen_server:call(S, hold) end),
    receive held -> ok end,
    gen_server:cast(S, x),
    gen_server:cast(S, y),
    timer:sleep(1),
    {monitored_by, By} = process_info(S, monitored_by),
    Seen = [process_info(S, message_queue_len), process_info(S, messages), By =:= [C], process_info(C, monitors) =:= {monitors, [{process, S}]}],
    S ! go_on,
    receive gone_on -> ok end,
    timer:sleep(1),
    Seen ++ [process_info(S, message_queue_len), process_info(S, monitored_by)].

ties() ->
    Me = self(),
    P = spawn_link(fun() -> receive stop -> ok end end),
    Q = spawn(fun() -> process_flag(trap_exit, true), link(P), unlink(P), link(P), Me ! ready, receive stop -> ok end end),
    receive ready -> ok end,
    {_, M} = spawn_monitor(fun() -> receive stop -> ok end end),
    R = monitor(process, P),
    S = monitor(process, P),
    {links, Ps} = process_info(P, links),
    {links, Own} = process_info(Me, links),
    {monitors, Ms} = process_info(Me, monitors),
    {monitored_by, By} = process_info(P, monitored_by),
    demonitor(R),
    demonitor(M, [flush]),
    {monitors, Left} = process_info(Me, monitors),
    unlink(P),
    Flags = [process_info(X, trap_exit) || X <- [Me, P, Q]] ++ [process_info(P, priority)],
    exit(P, over),
    receive {'DOWN', S, process, P, over} -> ok end,
    timer:sleep(1),
    [lists:sort(Ps) =:= lists:sort([Me, Q]), Own =:= [P], length(Ms), length([x || {process, X} <- Ms, X =:= P]), By =:= [Me, Me],
     Left =:= [{process, P}], process_info(Me, links), process_info(Me, monitors), process_info(Q, links), process_info(P, links)] ++ Flags.

named() ->
    P = spawn(fun() -> receive stop -> ok end end),
    register(one_of_all, P),
    M = monitor(process, one_of_all),
    Seen = process_info(self(), monitors),
    P ! stop,
    receive {'DOWN', M, process, {one_of_all, N}, normal} -> [Seen, N =:= node(), process_info(self(), monitors)] end.

errors() -> [try process_info(X, messages) catch error:Why -> Why end || X <- [here, 7]].
