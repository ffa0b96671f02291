%% Each encoding that adds or loses something is written once, at the first place where it is used.
-module(encodings).
-export([main/0]).

main() ->
    T = ets:new(t, []),
    M = #{T => 1},
    timer:sleep(10),
    C = counters:new(1, []),
    _ = rand:uniform(3),
    D = dict:new(),
    io:format("~p", [D]),
    put(k, M),
    L = atom_to_list(a),
    F = io_lib:format("~s", [L]),
    B = <<(list_to_binary(F))/binary, 1>>,
    _ = (catch hd([])),
    R = monitor(process, nobody),
    _ = application:get_env(a, b),
    _ = process_flag(priority, high),
    _ = nodes(),
    erlang:yield(),
    _ = timer:tc(fun() -> ok end),
    true = register(me, self()),
    try register(me, self()) catch error:badarg:S -> {S, C, B, R} end,
    _ = dets:all(),
    _ = qlc:e([]),
    gen_server:call(me, x).
%% note: 16: a binary is a list of its bytes here, with a tag; each byte is a node of the 4,096 that a value may have
%% note: 6: a table is kept by a process, and each call is a message and its answer; a table outlives its owner until that process gets the message
%% note: 7: a map is a list of pairs here, in the order of its keys; code that depends on the order of a map of over 32 keys, which Erlang leaves open, may go otherwise
%% note: 8: time is virtual: it passes only where nobody else can go, in the order of the deadlines; --patience early has it pass at any moment
%% note: 9: shared cells are kept by a process; each operation is one piece, at one place between call and answer
%% note: 10: a number by chance is a race of two messages, so it is a choice of the schedule and no even chance
%% note: 11: dict and sets are kept in the order of their keys, and not in that of a hash
%% note: 12: what is logged or printed is left out; a crash in formatting it isn't seen
%% note: 13: process dictionaries are kept by one process, and each access is a message and its answer
%% note: 14: atoms and their texts are those of the program; list_to_atom of others is refused
%% note: 15: pids, references and funs are formatted without numbers, and what comes is a flat list
%% note: 17: an error of the limits (a value over 4,096 nodes, an integer past 64 bits) ends the process and is not caught
%% note: 18: a monitor of a name is whereis and then a monitor of the pid: the name may pass to another between
%% note: 19: no application has an environment here, so get_env answers the default; starting one does nothing
%% note: 20: of the flags of a process only trap_exit has an effect
%% note: 21: there is one node; nothing is known of others
%% note: 22: garbage_collect, yield and display do nothing
%% note: 23: timer:tc measures nothing, and answers 0
%% note: 24: register within try goes through one process for all names, so that a refusal is a value
%% note: 25: a stack trace is [] here
%% note: 26: dets keeps its tables and files in memory, by a process; a run begins without files, and what a cut leaves of one isn't seen
%% note: 27: a query is evaluated in one piece, its generators one after the other
%% note: 28: a call without a time of its own never times out; -D CALL_TIMEOUTS lets it
