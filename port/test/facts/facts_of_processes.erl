%% What a process may know of itself, and its group leader: each is the same on erl and in every run of the tool.
-module(facts_of_processes).
-behaviour(gen_server).
-export([main/0, init/1, handle_call/3, handle_cast/2]).

init([]) -> {ok, none}.
handle_call(name, _, S) -> {reply, name(), S}.
handle_cast(_, S) -> {noreply, S}.

main() -> names() ++ [server(), process_info(self(), status), dictionary()] ++ leaders() ++ refused().

name() -> process_info(self(), registered_name).

names() ->
    None = name(),
    register(facts_me, self()),
    Own = name(),
    unregister(facts_me),
    Gone = name(),
    Me = self(),
    {_, M} = spawn_monitor(fun() -> register(facts_mine, Me) end),
    receive {'DOWN', M, process, _, normal} -> ok end,
    ByAnother = name(),
    unregister(facts_mine),
    yes = global:register_name(facts_global, self()),
    Global = name(),
    global:unregister_name(facts_global),
    [None, Own, Gone, ByAnother, Global].

server() ->
    {ok, P} = gen_server:start({local, facts_server}, ?MODULE, [], []),
    Name = gen_server:call(P, name),
    gen_server:stop(P),
    Name.

dictionary() ->
    put(a, 1),
    put(b, [two]),
    {dictionary, Pairs} = process_info(self(), dictionary),
    erase(a),
    erase(b),
    lists:sort([Pair || {K, _} = Pair <- Pairs, lists:member(K, [a, b])]).

leaders() ->
    Leader = group_leader(),
    Me = self(),
    spawn(fun() -> Me ! {leader, group_leader()} end),
    Same = receive {leader, L} -> L =:= Leader end,
    R = make_ref(),
    Leader ! {io_request, self(), R, {put_chars, unicode, ""}},
    Answer = receive {io_reply, R, A} -> A end,
    [is_pid(Leader), Same, Answer, group_leader(Leader, self()), process_info(self(), group_leader) =:= {group_leader, Leader}].

refused() ->
    [try group_leader(no_pid, self()) catch error:Why -> Why end,
     try group_leader(group_leader(), no_pid) catch error:Why -> Why end].
