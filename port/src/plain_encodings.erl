%% @doc Notes on the encodings that a source is seen to use: each is written once, with what it adds or loses.
-module(plain_encodings).
-export([note/3, times/0]).

%% @doc A note on a function of OTP, where a source calls it.
-spec note(module(), atom(), arity()) -> ok.
note(gen_server, Function, Arity) when {Function, Arity} =/= {call, 2} -> ok;
note(io_lib, Function, _) when Function =/= format, Function =/= fwrite -> ok;
note(application, _, _) ->
    lists:member(pf_application, plain_state:get(users))
        orelse plain_refusal:note_once(application, "no application has an environment here, so get_env answers the default; starting one does nothing"),
    ok;
note(timer, tc, _) -> plain_refusal:note_once(measured, "timer:tc measures nothing, and answers 0");
note(timer, _, _) -> times();
note(Module, _, _) ->
    case sentence(Module) of
        none -> ok;
        {Subject, Text} -> plain_refusal:note_once(Subject, Text)
    end.

%% @doc A note on times.
-spec times() -> ok.
times() ->
    plain_refusal:note_once(clock, "time is virtual: it passes only where nobody else can go, in the order of the deadlines; "
                                   "--patience early has it pass at any moment").

-spec sentence(module()) -> {atom(), string()} | none.
sentence(ets) -> {ets, "a table is kept by a process, and each call is a message and its answer; a table outlives its owner until that process gets the message"};
sentence(dets) -> {dets, "dets keeps its tables and files in memory, by a process; a run begins without files, and what a cut leaves of one isn't seen"};
sentence(qlc) -> {qlc, "a query is evaluated in one piece, its generators one after the other"};
sentence(Module) when Module =:= atomics; Module =:= counters; Module =:= persistent_term ->
    {cells, "shared cells are kept by a process; each operation is one piece, at one place between call and answer"};
sentence(rand) -> {rand, "a number by chance is a race of two messages, so it is a choice of the schedule and no even chance"};
sentence(Module) when Module =:= dict; Module =:= sets -> {hash, "dict and sets are kept in the order of their keys, and not in that of a hash"};
sentence(Module) when Module =:= logger; Module =:= error_logger; Module =:= io -> {output, "what is logged or printed is left out; a crash in formatting it isn't seen"};
sentence(global) -> {global, "global names are names of the one node"};
sentence(gen_server) -> {calls, "a call without a time of its own never times out; -D CALL_TIMEOUTS lets it"};
sentence(io_lib) -> {formats, "pids, references and funs are formatted without numbers, and what comes is a flat list"};
sentence(string) -> {text, "a character is a code point, upper and lower case are those of ASCII, and a text is a flat list or a binary"};
sentence(gen_statem) -> {statem, "gen_statem is a library after OTP 25, without hibernation, code change and change of the callback module"};
sentence(supervisor) -> {supervisor, "supervisor is a library after OTP 25, without code change and auto_shutdown; its restarts are counted by the clock of the run"};
sentence(net_kernel) -> {nodes, "there is one node; nothing is known of others"};
sentence(_) -> none.
