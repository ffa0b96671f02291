%% @doc The words of the command line.
-module(plain_words).
-export([read/1, of_farm/3, base/5, limit/1, value/3, without/2, last/2, with_choice/2]).

-define(FLAGS, ["--all", "--explain", "--compact", "--leaks", "--all-roots", "--fail-fast"]).

-type asked() :: #{command := translate | check | run | hunt | explore | shrink | chart | eunit | prop, files := [file:filename()], out := file:filename() | none,
                   options := plain_translation:options(), words := [string()], property := string() | none, limit := string() | none,
                   verbose => boolean(), format => text | json, mixed => true, one_node => true}.
-export_type([asked/0]).

%% @doc What is asked for.
-spec read([string()]) -> {ok, asked()} | {help, iodata()} | {refused, iodata()}.
read([]) -> {refused, "no command; pulsefarm-erl --help lists the commands"};
read([Word | _]) when Word =:= "--help"; Word =:= "-h"; Word =:= "help" -> {help, help()};
read(["--version" | _]) ->
    _ = application:load(pulsefarm_erl),
    {ok, Version} = application:get_key(pulsefarm_erl, vsn),
    {help, ["pulsefarm-erl ", Version, "\n"]};
read([Word | Rest]) ->
    case lists:member(Word, ["translate", "check", "run", "hunt", "explore", "shrink", "chart", "eunit", "prop"]) of
        true ->
            Asked = #{command => list_to_atom(Word), files => [], out => none, options => plain_translation:defaults(), words => [], property => none, limit => none},
            complete(words(Rest, Asked));
        false -> {refused, ["no command ", Word, "; the commands are translate, check, run, hunt, explore, shrink, chart, eunit and prop"]}
    end.

-spec complete({ok, asked()} | {help, iodata()} | {refused, iodata()}) -> {ok, asked()} | {help, iodata()} | {refused, iodata()}.
complete({ok, #{command := eunit, files := []}}) -> {refused, "no folder; name that of an application"};
complete({ok, #{files := []}}) -> {refused, "no file; name one or more .erl files"};
complete({ok, #{command := hunt, files := [Folder], words := Words, options := #{root := Root}} = Asked}) when not is_map_key(folder, Asked) ->
    case {filelib:is_dir(Folder), Root} of
        {false, _} -> complete({ok, Asked#{folder => none}});
        {true, none} ->
            Roots = case lists:member("--all-roots", words_in(Words)) of true -> all; false -> named end,
            Files = lists:sort(filelib:wildcard(filename:join(Folder, "**/*.erl"))),
            complete({ok, Asked#{folder => Roots, files := Files, words := ["--all-roots" | without(["--all-roots"], Words)]}});
        {true, _} -> {refused, "the roots of a folder are found by their names; name files with --root"}
    end;
complete({ok, #{command := Command, words := Words, out := Out, property := Property, limit := Limit} = Asked}) ->
    Given = words_in(Words) ++ ["-o" || Out =/= none] ++ ["--property" || Property =/= none] ++ ["--limit" || Limit =/= none] ++ ["--format" || is_map_key(format, Asked)]
        ++ ["--one-node" || is_map_key(one_node, Asked)],
    case {[Word || Word <- Given, not lists:member(Word, of_command(Command))], together(Asked)} of
        {[Word | _], _} -> {refused, [atom_to_list(Command), " has no word ", Word, other(Word)]};
        {[], {no, Sentence}} -> {refused, Sentence};
        {[], yes} ->
            case sensible(Asked) of
                {no, Sentence} -> {refused, Sentence};
                yes -> {ok, Asked}
            end
    end;
complete(Answer) -> Answer.

%% Values that are refused before anything is translated.
-spec sensible(asked()) -> yes | {no, iodata()}.
sensible(#{words := Words, property := Property}) ->
    Seeds = plain_hunt:seeds(value("--seeds", Words, "1")),
    case {Seeds, plain_hunt:time(value("--for", Words, none)), is_property(Property)} of
        {no, _, _} -> {no, "--seeds wants A..B, A below B"};
        {_, no, _} -> {no, "--for wants a number followed by s, m or h"};
        {_, _, false} ->
            {no, ["there is no property ", Property,
                  "; write sound, supervised, returns, true, nocrash, nodeadlock, withinlimit or never:PATTERN"]};
        _ -> yes
    end.

%% What comes after `never:' is pulsefarm's to judge.
-spec is_property(string() | none) -> boolean().
is_property(none) -> true;
is_property(Property) ->
    plain_verdict:own(Property) orelse lists:prefix("never:", Property)
        orelse lists:member(Property, ["returns", "true", "nocrash", "nodeadlock", "withinlimit"]).

%% The words that a command has beside those of every translation. Each has its effect; what a command lacks is refused.
-spec of_command(atom()) -> [string()].
of_command(translate) -> ["-o"];
of_command(check) -> ["--explain", "--format"];
of_command(run) -> ["--property", "--limit", "--seed", "--schedule", "--strategy", "--weights", "--edition", "--explain", "--format", "--one-node"];
of_command(hunt) ->
    ["--property", "--limit", "--seeds", "--for", "--strategy", "--weights", "--edition", "--workers", "--shrink", "--all", "--leaks", "--all-roots", "--fail-fast", "--format",
     "--one-node"];
of_command(explore) -> ["--property", "--limit", "--budget", "--for", "--deviations", "--edition", "--format"];
of_command(eunit) -> ["--property", "--limit", "--seeds", "--for", "--strategy", "--weights", "--edition", "--workers", "--test", "--junit", "--one-node"];
of_command(prop) -> ["--limit", "--seeds", "--tests", "--seed", "--strategy", "--weights", "--edition", "--workers", "--shrink"];
of_command(shrink) -> ["--property", "--limit", "--schedule", "--runs", "--edition", "--format"];
of_command(chart) -> ["--property", "--limit", "--seed", "--schedule", "--strategy", "--weights", "--edition", "--page", "--compact"].

%% Which commands some words are of.
-spec other(string()) -> string().
other("--leaks") -> "; it is of hunt";
other("--all-roots") -> "; it is of hunt, and eunit hunts the tests of an application";
other("--fail-fast") -> "; it is of hunt with --all-roots";
other("--compact") -> "; it is of chart";
other("--one-node") -> "; it is of hunt, run and eunit";
other("--explain") -> "; it is of run and check";
other("--format") -> "; it is of hunt, explore, run, shrink and check; eunit has --junit";
other(_) -> "".

%% Words that don't go together.
-spec together(asked()) -> yes | {no, string()}.
together(#{mixed := true, command := Command}) when Command =/= hunt -> {no, "--patience mixed is of hunt; take a number, or early"};
together(#{mixed := true, words := Words} = Asked) ->
    case [Word || Word <- ["--all-roots", "--all"], lists:member(Word, words_in(Words))] of
        [Word | _] -> {no, "--patience mixed and " ++ Word ++ " don't go together"};
        [] -> together(maps:remove(mixed, Asked))
    end;
together(#{one_node := true, property := Property, words := Words} = Asked) ->
    Own = (Property =:= none orelse plain_verdict:own(Property)) andalso not lists:member("--all", words_in(Words)),
    case Own of
        true -> together(maps:remove(one_node, Asked));
        false -> {no, "--one-node goes with --property sound, or supervised"}
    end;
together(#{command := hunt, words := Words, property := Property, options := #{root := Root}}) ->
    Given = words_in(Words),
    Has = fun(Word) -> lists:member(Word, Given) end,
    Own = Property =:= none orelse Property =:= "sound" orelse Property =:= "supervised",
    Pairs = [{"--all", "--shrink"}, {"--all", "--leaks"}, {"--shrink", "--leaks"}, {"--all-roots", "--all"}, {"--all-roots", "--shrink"}],
    case {Has("--all") andalso Property =/= none andalso Own, [Pair || {A, B} = Pair <- Pairs, Has(A), Has(B)]} of
        {true, _} -> {no, "--all goes with the properties of pulsefarm; take --property nocrash"};
        {false, [{A, B} | _]} -> {no, A ++ " and " ++ B ++ " don't go together"};
        {false, []} ->
            case {Has("--all-roots"), Root, Own} of
                {true, Named, _} when Named =/= none -> {no, "--all-roots and --root don't go together"};
                {true, _, false} -> {no, "--all-roots goes with --property sound, or supervised"};
                {false, _, _} -> one_root(Has, Own);
                {true, _, true} -> yes
            end
    end;
together(#{command := eunit, property := Property}) when Property =/= none, Property =/= "sound", Property =/= "supervised" ->
    {no, "eunit goes by --property sound, or supervised"};
together(_) -> yes.

-spec one_root(fun((string()) -> boolean()), boolean()) -> yes | {no, string()}.
one_root(Has, Own) ->
    case {Has("--fail-fast"), Has("--leaks") andalso not Own} of
        {true, _} -> {no, "--fail-fast goes with --all-roots"};
        {false, true} -> {no, "--leaks goes with --property sound, or supervised"};
        {false, false} -> yes
    end.

-spec words_in([string()]) -> [string()].
words_in([Word | Rest]) ->
    case {lists:member(Word, ?FLAGS), Rest} of
        {true, _} -> [Word | words_in(Rest)];
        {false, [_ | Others]} -> [Word | words_in(Others)]
    end;
words_in([]) -> [].

-spec words([string()], asked()) -> {ok, asked()} | {help, iodata()} | {refused, iodata()}.
words([], Asked) -> {ok, Asked};
words(["--help" | _], _) -> {help, help()};
words(["-o", File | Rest], Asked) -> words(Rest, Asked#{out := File});
words(["-I", Folder | Rest], #{options := #{includes := Before}} = Asked) -> words(Rest, with(includes, Before ++ [Folder], Asked));
words(["-D", Definition | Rest], #{options := #{defines := Before, library_defines := Own}} = Asked) ->
    {Name, Value} = definition(Definition),
    Library = case Name of 'CALL_TIMEOUTS' -> [Name | Own]; _ -> Own end,
    words(Rest, with(library_defines, Library, with(defines, Before ++ [Value], Asked)));
words(["--root", Name | Rest], Asked) -> words(Rest, with(root, list_to_atom(Name), Asked));
words(["--patience", "early" | Rest], Asked) -> words(["--patience", "0" | Rest], Asked);
words(["--patience", "mixed" | Rest], Asked) -> words(Rest, Asked#{mixed => true});
words(["--patience", Number | Rest], #{options := #{library_defines := Own}} = Asked) ->
    with_number("--patience", Number, fun(N) -> words(Rest, with(library_defines, [{'PATIENCE', N} | Own], Asked)) end);
words(["--never", Number | Rest], Asked) -> with_number("--never", Number, fun(N) -> words(Rest, with(never, N, Asked)) end);
words(["--calls", Called | Rest], #{options := #{calls := Before}} = Asked) ->
    case string:split(Called, ":") of
        [Module, Function] -> words(Rest, with(calls, [{list_to_atom(Module), list_to_atom(Function)} | Before], Asked));
        _ -> {refused, ["--calls wants Module:Function, and not ", Called]}
    end;
words(["--verbose" | Rest], Asked) -> words(Rest, Asked#{verbose => true});
words(["--one-node" | Rest], Asked) -> words(Rest, Asked#{one_node => true});
words(["--lax" | Rest], Asked) -> words(Rest, with(lax, true, Asked));
words(["--property", Text | Rest], Asked) -> words(Rest, Asked#{property := Text});
words(["--limit", Number | Rest], Asked) -> words(Rest, Asked#{limit := Number});
words(["--format", Format | Rest], Asked) ->
    case Format of
        "json" -> words(Rest, Asked#{format => json});
        "text" -> words(Rest, Asked#{format => text});
        _ -> {refused, ["--format wants text or json, and not ", Format]}
    end;
words([Word | Rest] = All, #{words := Before} = Asked) ->
    case lists:member(Word, ?FLAGS) of
        true -> words(Rest, Asked#{words := Before ++ [Word]});
        false -> valued(All, Asked)
    end.

%% Words with a value, and files.
-spec valued([string()], asked()) -> {ok, asked()} | {help, iodata()} | {refused, iodata()}.
valued(["--" ++ _ = Name, Value | Rest], #{words := Before} = Asked) -> words(Rest, Asked#{words := Before ++ [Name, Value]});
valued(["-" ++ _ = Name | _], _) -> {refused, ["the word ", Name, " wants a value, or isn't known"]};
valued([File | Rest], #{files := Files} = Asked) -> words(Rest, Asked#{files := Files ++ [File]}).

-spec with(atom(), term(), asked()) -> asked().
with(Option, Value, #{options := Options} = Asked) -> Asked#{options := Options#{Option := Value}}.

-spec with_number(string(), string(), fun((non_neg_integer()) -> Answer)) -> Answer | {refused, iodata()}.
with_number(Word, Text, Continue) ->
    case string:to_integer(Text) of
        {Number, ""} when is_integer(Number), Number >= 0 -> Continue(Number);
        _ when Word =:= "--patience" -> {refused, ["--patience wants a number from 0 on, early or mixed, and not ", Text]};
        _ -> {refused, [Word, " wants a number from 0 on, and not ", Text]}
    end.

-spec definition(string()) -> {atom(), atom() | {atom(), term()}}.
definition(Text) ->
    case string:split(Text, "=") of
        [Name] -> {list_to_atom(Name), list_to_atom(Name)};
        [Name, Value] -> {list_to_atom(Name), {list_to_atom(Name), term(Value)}}
    end.

-spec term(string()) -> term().
term(Text) ->
    case erl_scan:string(Text ++ ".") of
        {ok, Tokens, _} ->
            case erl_parse:parse_term(Tokens) of
                {ok, Term} -> Term;
                _ -> list_to_atom(Text)
            end;
        _ -> list_to_atom(Text)
    end.

%% @doc The words for pulsefarm.
-spec of_farm(file:filename(), asked(), plain_translation:translation()) -> [string()].
of_farm(File, #{command := check, words := Words}, _) -> ["check", File | Words];
of_farm(File, #{command := Command, words := Words} = Asked, Translation) ->
    Property = plain_verdict:asked(Asked),
    Judged = case plain_verdict:own(Property) of true -> "returns"; false -> Property end,
    base(atom_to_list(Command), File, Asked, Translation, Judged) ++ [Word || Command =/= shrink, Word <- last(Words, Translation)]
        ++ with_choice(Command, without(["--explain"], Words)).

%% @doc The words that all runs have.
-spec base(string(), file:filename(), asked(), plain_translation:translation(), string()) -> [string()].
base(Command, File, Asked, #{roots := [Root | _]}, Property) ->
    [Command, File, "--root", atom_to_list(Root), "--limit", limit(Asked), "--property", Property].

%% @doc The words by which time is virtual where a seed chooses.
-spec last([string()], plain_translation:translation()) -> [string()].
last(Words, #{clock := Clock}) -> plain_time:last(Clock andalso not lists:member("--schedule", Words)).

%% @doc The limit of steps.
-spec limit(asked()) -> string().
limit(#{limit := none}) -> "100000";
limit(#{limit := Limit}) -> Limit.

%% @doc The words with seeds or a schedule, where none was given.
-spec with_choice(atom(), [string()]) -> [string()].
with_choice(hunt, Words) -> Words ++ lists:append([["--seeds", "0..1000"] || not lists:member("--seeds", Words), not lists:member("--for", Words)]);
with_choice(Command, Words) when Command =:= run; Command =:= chart ->
    Words ++ lists:append([["--seed", "0"] || not lists:member("--seed", Words), not lists:member("--schedule", Words)]);
with_choice(shrink, Words) -> Words ++ lists:append([["--runs", "300"] || not lists:member("--runs", Words)]).

%% @doc The value of a word.
-spec value(string(), [string()], Default) -> string() | Default.
value(Name, [Name, Value | _], _) -> Value;
value(Name, [_ | Words], Default) -> value(Name, Words, Default);
value(_, [], Default) -> Default.

%% @doc The words without these and their values.
-spec without([string()], [string()]) -> [string()].
without(Names, [Word | Rest]) ->
    case {lists:member(Word, Names), lists:member(Word, ?FLAGS), Rest} of
        {true, true, _} -> without(Names, Rest);
        {false, true, _} -> [Word | without(Names, Rest)];
        {true, false, [_ | Others]} -> without(Names, Others);
        {false, false, [Value | Others]} -> [Word, Value | without(Names, Others)]
    end;
without(_, []) -> [].

-spec help() -> iodata().
help() ->
    "Plain Erlang for pulsefarm: modules are translated into its profile by Erlang's own compiler, and its answers are reported in\n"
    "the words of the source. This part is tested and not proved; port/ENCODINGS.md says what each encoding adds and loses.\n"
    "\n"
    "  pulsefarm-erl hunt FILE.. [WORDS]       hunts for a run that fails: each process with the function that it runs, and\n"
    "                                          a crash with file, line and function\n"
    "  pulsefarm-erl explore FILE.. [WORDS]    goes through all schedules, by rising deviations from the first choice: --budget N runs,\n"
    "                                          --for T, --deviations K; in virtual time those by which the clock goes last\n"
    "  pulsefarm-erl run FILE.. [WORDS]        one run, by --seed S or --schedule L (0,1,2 or @FILE)\n"
    "  pulsefarm-erl shrink FILE.. [WORDS]     makes a failing schedule smaller\n"
    "  pulsefarm-erl chart FILE.. [WORDS]      draws a run as a message sequence chart (SVG)\n"
    "  pulsefarm-erl eunit FOLDER [WORDS]      hunts each test of an application, or of those in apps: src, include, test, its .app.src\n"
    "                                          and what it depends on in _checkouts, _build and deps, the erl_opts of\n"
    "                                          rebar.config; --test PART takes those whose name has it, and reports the run of one that\n"
    "                                          fails; --junit FILE writes the answer as JUnit has it\n"
    "  pulsefarm-erl prop FILE.. [WORDS]       tests parallel commands of the state machine (PropEr, QuickCheck) in the first file:\n"
    "                                          each outcome has to be that of some order of the commands; --tests N (100), --seed S\n"
    "                                          for the commands, --seeds (0..200) of each; setup/0 and cleanup/1 go around each run\n"
    "  pulsefarm-erl check FILE..              says ok, and how much of its 65,536 bytes the translation takes, or all that is\n"
    "                                          refused\n"
    "  pulsefarm-erl translate FILE.. [-o OUT] writes the module, and OUT.map with the lines that its functions come from\n"
    "\n"
    "The first file has the root: a function without arguments, main where there is one.\n"
    "WORDS are those of pulsefarm (pulsefarm --help), but for some that are refused. Where one isn't given: --limit 100000,\n"
    "--property sound, of hunt --seeds 0..1000, of eunit --seeds 0..200, of run and chart --seed 0, and of shrink --runs 300.\n"
    "\n"
    "  --root F            begins with the function F of the first file\n"
    "  -I DIR, -D NAME[=VALUE]   as erlc has them\n"
    "  --property sound          fails where the root doesn't return (a deadlock too), and where a process ends by an error, or by\n"
    "                            a reason other than normal, shutdown, {shutdown,_}, or killed by a supervisor\n"
    "  --property supervised     the same, whatever becomes of the root; the other properties are those of pulsefarm\n"
    "  --patience N        how many turns of the run's clock a time has, whatever others do: N below 10 ms, 2N below 100,\n"
    "                      3N below 1000, 4N else; early has each pass at any moment. mixed, of hunt, goes over the first half\n"
    "                      of the seeds without it and over the second by early. Without it time is virtual: it passes only\n"
    "                      where nobody else can go, in the order of the deadlines\n"
    "  --never MS          takes away the timeouts of literal times from MS milliseconds on, where a receive has clauses\n"
    "  -D CALL_TIMEOUTS    lets the 5,000 ms of gen_server:call/2 pass, which else they never do\n"
    "  --verbose           reports all events and processes, those of the library, its services and the clock too\n"
    "  --format json       of hunt, explore, run, shrink and check: an object on each line (docs/FROM_ERLANG.md); else text\n"
    "  --one-node          of hunt, run and eunit: signals come in the order of their causes, as on one node; a run that fails\n"
    "                      otherwise is left out of a hunt\n"
    "  --leaks             of hunt: a run fails too whose root returns and leaves processes that wait\n"
    "  --all-roots         of hunt: each exported function without arguments of the first file, with a line for each and one at the\n"
    "                      end; with --fail-fast none after the first that fails. Of a folder in the place of files the roots are\n"
    "                      main, race, and what ends with _race or _test in each of its files; with --all-roots all\n"
    "  --explain           of run: where each process is at the end, on standard error\n"
    "  --calls M:F         says that a value names this function, where a text of over 24,576 bytes left it out\n"
    "  --lax               takes calls that aren't known; who calls one ends with {refused,Module,Function,Arity}\n"
    "\n"
    "What can't be translated is refused with file, line and a cure; a note says what an encoding adds or loses. The program\n"
    "pulsefarm is looked for on the path, or is what PULSEFARM names.\n"
    "The status is that of pulsefarm: 0, 1 where the property fails, 2 where something is refused.\n".
