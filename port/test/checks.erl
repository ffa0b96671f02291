%% @doc The checks of this part that take more than a unit test: they run the translator in this node and call pulsefarm.
%% Each check counts what passed and failed, and prints each failure on a line.
-module(checks).
-export([main/0, main/1, pass/1, expect/3, expect/2, has/3, folder/1, room/1, translate/2, translate/1, hunt/4, run/3, value_on_erlang/2, value_on_erlang/3, load/2, normal/1, last/1, bare/1, command/1, command/2]).

-spec main() -> no_return().
main() -> main([check_units, check_language, check_refused, check_notes, check_random, check_calls, check_formats, check_tables, check_facts, check_otp, check_programs, check_places, check_command, check_explore, check_options, check_eunit, check_prop, check_ct, check_rebar,
              check_corpus, check_room, check_speed]).

%% @doc Runs these checks, and ends with the count on the last line.
-spec main([module()]) -> no_return().
main(Modules) ->
    logger:set_primary_config(level, none),
    put(passed, 0),
    put(failed, 0),
    [one(Module) || Module <- Modules],
    io:format("~w passed, ~w failed~n", [get(passed), get(failed)]),
    halt(case get(failed) of 0 -> 0; _ -> 1 end).

-spec one(module()) -> ok.
one(Module) ->
    Before = {get(passed), get(failed)},
    {Time, _} = timer:tc(fun() ->
        try Module:check()
        catch Class:Reason:Stack -> fail("~w ended: ~w ~P at ~P", [Module, Class, Reason, 40, Stack, 20])
        end
    end),
    {Passed, Failed} = Before,
    io:format("~w: ~w as wanted, ~w not, ~.1f s~n", [Module, get(passed) - Passed, get(failed) - Failed, Time / 1.0e6]).

-spec pass(non_neg_integer()) -> ok.
pass(Number) ->
    put(passed, get(passed) + Number),
    ok.

-spec fail(io:format(), [term()]) -> ok.
fail(Format, Arguments) ->
    put(failed, get(failed) + 1),
    io:format("not as wanted: " ++ Format ++ "~n", Arguments).

%% @doc Counts whether both are equal.
-spec expect(iodata(), term(), term()) -> boolean().
expect(_, Same, Same) ->
    pass(1),
    true;
expect(Name, Wanted, Seen) ->
    fail("~ts: ~tP, and not ~tP", [Name, Seen, 60, Wanted, 60]),
    false.

%% @doc Counts whether it is true.
-spec expect(iodata(), boolean()) -> boolean().
expect(Name, Seen) -> expect(Name, true, Seen).

%% @doc A folder of the tests.
-spec folder(string()) -> file:filename().
folder(Name) -> filename:join(os:getenv("CHECKS"), Name).

%% @doc A file in the room of this run.
-spec room(string()) -> file:filename().
room(Name) -> filename:join(os:getenv("ROOM"), Name).

-spec translate([file:filename()]) -> {ok, file:filename(), plain_translation:translation()} | {refused, [tuple()]}.
translate(Files) -> translate(Files, #{}).

%% @doc Translates files into the room.
-spec translate([file:filename()], map()) -> {ok, file:filename(), plain_translation:translation()} | {refused, [tuple()]}.
translate(Files, Options) ->
    case plain_translation:translate(Files, maps:merge(plain_translation:defaults(), Options)) of
        {ok, #{text := Text} = Translation} ->
            File = room(filename:basename(hd(Files), ".erl") ++ ".out.erl"),
            ok = file:write_file(File, Text),
            {ok, File, Translation};
        Refused -> Refused
    end.

%% @doc All outcomes of a range of seeds: each `holds' or `fails', how many, and the outcome.
-spec hunt(file:filename(), string(), string(), string()) -> [{holds | fails, pos_integer(), string()}].
hunt(File, Root, Property, Seeds) ->
    {Text, _} = plain_farm:call(["hunt", File, "--root", Root, "--limit", "100000", "--property", Property, "--seeds", Seeds, "--strategy", "uniform",
                               "--workers", "1", "--all" | last(File)]),
    [outcome(binary_to_list(Line)) || Line <- binary:split(Text, <<"\n">>, [global, trim])].

-spec outcome(string()) -> {holds | fails, pos_integer(), string()}.
outcome(Line) ->
    [Word, Number | _] = string:split(Line, " ", all),
    [_, Outcome] = string:split(Line, ": "),
    {list_to_atom(Word), list_to_integer(Number), case Outcome of "deadlock" ++ _ -> "deadlock"; _ -> Outcome end}.

%% @doc The outcome of a run by a seed, as its line.
-spec run(file:filename(), string(), non_neg_integer()) -> {string(), non_neg_integer()}.
run(File, Root, Seed) ->
    {Text, Status} = plain_farm:call(["run", File, "--root", Root, "--limit", "100000", "--seed", integer_to_list(Seed) | last(File)]),
    Lines = binary:split(Text, <<"\n">>, [global, trim]),
    case lists:reverse(Lines) of
        [_, <<"steps ", Steps/binary>>, Outcome | _] -> {binary_to_list(Outcome), binary_to_integer(Steps)};
        _ -> {lists:concat(["status ", Status, " ", binary_to_list(Text)]), 0}
    end.

%% @doc The words by which a seed chooses the ticker of a module last, where it has one.
-spec last(file:filename()) -> [string()].
last(File) ->
    {ok, Text} = file:read_file(File),
    plain_time:last(binary:match(Text, <<"port@ticker">>) =/= nomatch).

%% @doc Compiles and loads a module.
-spec load(file:filename(), [term()]) -> module().
load(File, Options) ->
    {ok, Module, Binary} = compile:file(File, [binary, nowarn_export_all | Options]),
    code:purge(Module),
    {module, Module} = code:load_binary(Module, File, Binary),
    Module.

%% @doc The value of a function on Erlang, in a process of its own.
-spec value_on_erlang(file:filename(), atom()) -> term().
value_on_erlang(File, Root) -> value_on_erlang(File, Root, []).

-spec value_on_erlang(file:filename(), atom(), [term()]) -> term().
value_on_erlang(File, Root, Options) ->
    Module = load(File, Options),
    {Pid, Monitor} = spawn_monitor(fun() -> exit({value, Module:Root()}) end),
    receive
        {'DOWN', Monitor, process, Pid, {value, Value}} -> Value;
        {'DOWN', Monitor, process, Pid, Reason} -> {ended, Reason}
    end.

%% @doc A value of Erlang as the profile has it.
-spec normal(term()) -> term().
normal(Map) when is_map(Map) -> {'#map', lists:sort([{normal(Key), normal(Value)} || {Key, Value} <- maps:to_list(Map)])};
normal(Float) when is_float(Float) -> {'#float', plain_float:key(Float)};
normal(Binary) when is_binary(Binary) -> {'#bin', binary_to_list(Binary)};
normal({Reason, [{M, F, _, Info} | _]}) when is_atom(M), is_atom(F), is_list(Info) -> {normal(Reason), []};
normal(Tuple) when is_tuple(Tuple) -> list_to_tuple([normal(X) || X <- tuple_to_list(Tuple)]);
normal([Head | Tail]) -> [normal(Head) | normal(Tail)];
normal(Term) -> Term.

%% @doc A reason without its stack trace.
-spec bare(term()) -> term().
bare({Reason, [{_, _, _, _} | _]}) -> {Reason, []};
bare(Reason) -> Reason.

%% @doc Runs the program pulsefarm-erl; what it prints, with its standard error, and its status.
-spec command([string()]) -> {string(), non_neg_integer()}.
command(Words) -> command(Words, []).

%% @doc The same with variables of the environment.
-spec command([string()], [{string(), string()}]) -> {string(), non_neg_integer()}.
command(Words, Environment) ->
    Program = filename:join([os:getenv("CHECKS"), "..", "pulsefarm-erl"]),
    Port = open_port({spawn_executable, Program}, [{args, Words}, {env, Environment}, exit_status, use_stdio, stderr_to_stdout, hide]),
    gather(Port, []).

-spec gather(port(), [string()]) -> {string(), non_neg_integer()}.
gather(Port, Before) ->
    receive
        {Port, {data, Data}} -> gather(Port, [Data | Before]);
        {Port, {exit_status, Status}} -> {lists:append(lists:reverse(Before)), Status}
    end.

%% @doc An answer has a line that fits this expression; where it has none, its end is printed.
-spec has(iodata(), string(), string()) -> boolean().
has(Name, Expression, Answer) ->
    case re:run(Answer, Expression, [multiline]) of
        nomatch ->
            io:format("  ~ts~n", [lists:nthtail(max(0, length(Answer) - 400), Answer)]),
            expect([Name, " has ", Expression], false);
        _ -> expect(Name, true)
    end.
