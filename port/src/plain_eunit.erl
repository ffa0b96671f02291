%% @doc The tests of an application: each `_test' and each test of a `_test_' is a root of its own, hunted in turn. The tests of a generator
%% are listed by a run of it, within their fixtures, and each is then run alone, within the same.
-module(plain_eunit).
-export([run/1, with_room/1, with_roots/2]).

-define(SEEDS, "0..200").
%% How many seeds of a test are hunted in a round, where a time is set.
-define(BLOCK, 50).
-type asked() :: plain_words:asked().
%% A test: its module, its name with its title, the body of its root, and of which generator it is wanted.
-type test() :: #{module := module(), name := string(), body := iodata(), cut := none | {{module(), atom()}, plain_cut:path() | all}}.
%% Tests with the translation that has their roots.
-type group() :: {plain_translation:translation(), asked(), [{test(), atom()}]}.
-type result() :: {test(), {holds, non_neg_integer()} | {fails, non_neg_integer(), iodata(), iodata()} | {refused, iodata()}}.

%% @doc Hunts all tests of the application in a folder; its status.
-spec run(asked()) -> 0..255.
run(#{files := [Folder]} = Asked) ->
    case plain_application:read(Folder) of
        {ok, Project} -> with_room(fun(Room) -> tests(Project, Room, with(Project, Asked)) end);
        {error, Sentence} -> complained(Sentence)
    end;
run(_) -> complained("eunit wants one folder, that of an application").

-spec complained(iodata()) -> 2.
complained(Sentence) ->
    plain_command:complain(["pulsefarm-erl: ", Sentence, "\n"]),
    2.

%% The options of the application beside those that were given.
-spec with(plain_application:project(), asked()) -> asked().
with(#{includes := Includes, defines := Defines}, #{options := #{includes := Own, defines := Given} = Options} = Asked) ->
    Asked#{options := Options#{includes := Own ++ Includes, defines := Given ++ Defines}}.

%% @doc A folder of its own for the modules that are made here, taken away after it.
-spec with_room(fun((file:filename()) -> Status)) -> Status.
with_room(Use) ->
    Below = case os:getenv("TMPDIR") of false -> "/tmp"; Named -> Named end,
    Room = filename:join(Below, lists:concat(["pulsefarm-erl-", os:getpid(), "-", erlang:unique_integer([positive])])),
    ok = file:make_dir(Room),
    try Use(Room)
    after file:del_dir_r(Room)
    end.

-spec tests(plain_application:project(), file:filename(), asked()) -> 0..255.
tests(#{sources := Sources, tests := Tests, compiled := Compiled} = Project, Room, #{words := Words} = Asked) ->
    ok = code:add_pathsz(Compiled), % for parse transforms
    Known = filename:join(Room, "pf_application.erl"),
    ok = file:write_file(Known, unicode:characters_to_binary(plain_application:module_text(Project))),
    Files = Sources ++ Tests ++ plain_application:needed(Project) ++ [Known],
    try
        Functions = [{Module, Name} || File <- Sources ++ Tests, {Module, Name} <- functions(File, Asked)],
        All = listed(Functions, Files, Room, Asked),
        Wanted = case plain_words:value("--test", Words, none) of
            none -> All;
            Part -> [Test || #{name := Name} = Test <- All, string:find(Name, Part) =/= nomatch]
        end,
        case Wanted of
            [] -> complained("there is no such test");
            _ -> reported(hunted(Wanted, Files, Room, Asked), Asked)
        end
    catch throw:{refuse, File, Line, Sentence} ->
        plain_command:complain(io_lib:format("~ts: ~ts~n", [plain_refusal:place(File, Line), Sentence])),
        2
    end.

%% The functions of a file that EUnit takes for tests.
-spec functions(file:filename(), asked()) -> [{module(), atom()}].
functions(File, #{options := #{includes := Includes, defines := Defines}}) ->
    case epp:parse_file(File, [{includes, [filename:dirname(File) | Includes]}, {macros, Defines}]) of
        {ok, Forms} ->
            [Module | _] = [M || {attribute, _, module, M} <- Forms] ++ [list_to_atom(filename:basename(File, ".erl"))],
            [{Module, Name} || {function, _, Name, 0, _} <- Forms, plain_cut:is_test(Name)];
        {error, Reason} -> throw({refuse, File, 1, file:format_error(Reason)})
    end.

%% Tests as they are, and those of generators, which runs list.
-spec listed([{module(), atom()}], [file:filename()], file:filename(), asked()) -> [test()].
listed(Functions, Files, Room, Asked) ->
    Generators = [listing(MF) || MF <- Functions, is_generator(MF)],
    Reported = [{Name, Listed} || Group <- [translated(Generators, Files, Room, Asked) || Generators =/= []], Part <- Group, {Name, Listed} <- lists_of(Part, Asked)],
    lists:append([case proplists:get_value(named(MF), Reported, no) of
        no -> [whole(MF)];
        {ok, Found} -> [of_set(MF, Path, Title) || {Path, Title} <- Found]
    end || MF <- Functions]).

-spec listing({module(), atom()}) -> test().
listing({Module, _} = MF) -> #{module => Module, name => named(MF), body => ["pf_eunit:tests(", generator(MF), ")"], cut => {MF, all}}.

-spec of_set({module(), atom()}, plain_cut:path(), term()) -> test().
of_set({Module, _} = MF, Path, Title) ->
    #{module => Module, name => titled(named(MF), Path, Title), body => ["pf_eunit:run(", generator(MF), ", ", io_lib:format("~w", [Path]), ")"], cut => {MF, Path}}.

-spec named({module(), atom()}) -> string().
named({Module, Function}) -> lists:concat([Module, ":", Function]).

-spec generator({module(), atom()}) -> iodata().
generator({Module, Function}) -> io_lib:format("fun() -> ~p:~p() end", [Module, Function]).

-spec is_generator({module(), atom()}) -> boolean().
is_generator({_, Function}) -> plain_cut:is_generator(Function).

%% A test that is run whole; of a generator that can't be listed its listing, which fails.
-spec whole({module(), atom()}) -> test().
whole({Module, Function} = MF) ->
    case is_generator(MF) of
        true -> listing(MF);
        false -> #{module => Module, name => named(MF), body => io_lib:format("~p:~p(), ok", [Module, Function]), cut => none}
    end.

%% The tests of each generator of a translation, by a run.
-spec lists_of({ok, group()} | {refused, test(), iodata()}, asked()) -> [{string(), {ok, [{[pos_integer()], term()}]} | no}].
lists_of({refused, #{name := Name}, _}, _) -> [{Name, no}];
lists_of({ok, {#{text := Text}, _, Roots}}, Asked) ->
    plain_farm:with_file(Text, fun(File) ->
        [{Name, of_generator(plain_farm:call(["run", File, "--root", atom_to_list(Root), "--limit", plain_words:limit(Asked), "--seed", "0", "--property", "returns"]))}
         || {#{name := Name}, Root} <- Roots]
    end).

-spec of_generator({binary(), 0..255} | missing) -> {ok, [{[pos_integer()], term()}]} | no.
of_generator({Text, 0}) ->
    {match, [Value]} = re:run(Text, <<"^finished (.*)$">>, [multiline, {capture, [1], list}]),
    {ok, Tokens, _} = erl_scan:string(Value ++ "."),
    {ok, Found} = erl_parse:parse_term(Tokens),
    {ok, Found};
of_generator(_) -> no.

-spec titled(string(), [pos_integer()], term()) -> string().
titled(Name, Path, Title) ->
    Place = lists:flatten(lists:join(".", [integer_to_list(I) || I <- Path])),
    Text = case Title of
        none -> "";
        {'#bin', Bytes} -> " " ++ Bytes;
        _ -> " " ++ Title
    end,
    Name ++ ["[" || Place =/= ""] ++ Place ++ ["]" || Place =/= ""] ++ Text.

%% Tests in one translation where they fit, else in halves; and each alone where something is refused.
-spec translated([test()], [file:filename()], file:filename(), asked()) -> [{ok, group()} | {refused, test(), iodata()}].
translated(Tests, Files, Room, #{options := Options} = Asked) ->
    {File, Roots} = with_roots(Tests, Room),
    All = [File | Files],
    Own = Options#{cuts := cuts(Tests)},
    case {plain_translation:translate(All, Own), Tests} of
        {{ok, Translation}, _} -> [{ok, {Translation, Asked#{files := All, options := Own}, lists:zip(Tests, Roots)}}];
        {{refused, Refusals}, [Test]} ->
            [{refused, Test, lists:join("; ", [[plain_refusal:place(Named, Line), ": ", Sentence] || {Named, Line, Sentence} <- Refusals])}];
        {{refused, Refusals}, _} ->
            lists:append([translated(Part, Files, Room, Asked) || Part <- parts(Tests, plain_size:is_too_large(Refusals))])
    end.

-spec parts([test()], boolean()) -> [[test()]].
parts(Tests, true) -> tuple_to_list(lists:split(length(Tests) div 2, Tests));
parts(Tests, false) -> [[Test] || Test <- Tests].

%% @doc A module with a root for each test, which has a body.
-spec with_roots([#{body := iodata(), atom() => term()}], file:filename()) -> {file:filename(), [atom()]}.
with_roots(Tests, Room) ->
    Module = lists:concat(["pf_tests_", erlang:unique_integer([positive])]),
    File = filename:join(Room, Module ++ ".erl"),
    Roots = [list_to_atom("t" ++ integer_to_list(I)) || I <- lists:seq(1, length(Tests))],
    Exports = lists:join(", ", [[atom_to_list(Root), "/0"] || Root <- Roots]),
    Functions = [[atom_to_list(Root), "() -> ", Body, ".\n"] || {Root, #{body := Body}} <- lists:zip(Roots, Tests)],
    ok = file:write_file(File, ["-module(", Module, ").\n-export([", Exports, "]).\n", Functions]),
    {File, Roots}.

%% What tests need of their generators.
-spec cuts([test()]) -> plain_cut:cuts().
cuts(Tests) ->
    lists:foldl(fun
        ({MF, all}, Cuts) -> Cuts#{MF => all};
        ({MF, Path}, Cuts) -> Cuts#{MF => [Path | maps:get(MF, Cuts, [])]}
    end, #{}, [Cut || #{cut := Cut} <- Tests, Cut =/= none]).

%% All tests, one after the other; or, where a time is set, round by round.
-spec hunted([test()], [file:filename()], file:filename(), asked()) -> [result()].
hunted(Tests, Files, Room, #{words := Words} = Asked) ->
    Groups = translated(Tests, Files, Room, Asked),
    Refused = [line({Test, {refused, Sentence}}) || {refused, Test, Sentence} <- Groups],
    Ready = [{Group, Test, Root} || {ok, {_, _, Roots} = Group} <- Groups, {Test, Root} <- Roots],
    {From, To} = plain_hunt:seeds(plain_words:value("--seeds", Words, ?SEEDS)),
    case plain_hunt:time(plain_words:value("--for", Words, none)) of
        none -> Refused ++ [line({Test, one(From, To, Group, Root)}) || {Group, Test, Root} <- Ready];
        Time -> Refused ++ rounds(From, erlang:monotonic_time(millisecond) + Time, Ready, [])
    end.

-spec rounds(non_neg_integer(), integer(), [{group(), test(), atom()}], [result()]) -> [result()].
rounds(_, _, [], Done) -> Done;
rounds(From, End, Ready, Done) ->
    Round = [{Group, Test, Root, one(From, From + ?BLOCK, Group, Root)} || {Group, Test, Root} <- Ready],
    Ended = [line({Test, Result}) || {_, Test, _, Result} <- Round, element(1, Result) =/= holds],
    Left = [{Group, Test, Root} || {Group, Test, Root, {holds, _}} <- Round],
    case erlang:monotonic_time(millisecond) >= End of
        true -> Done ++ Ended ++ [line({Test, {holds, From + ?BLOCK}}) || {_, Test, _} <- Left];
        false -> rounds(From + ?BLOCK, End, Left, Done ++ Ended)
    end.

-spec one(non_neg_integer(), pos_integer(), group(), atom()) -> {holds, non_neg_integer()} | {fails, non_neg_integer(), iodata(), iodata()} | {refused, iodata()}.
one(From, To, {#{text := Text} = All, Asked, Roots}, Root) ->
    Translation = All#{roots := [Root]},
    case plain_farm:with_file(Text, fun(File) -> plain_hunt:least(From, To, File, Asked, Translation) end) of
        {none, Crossed} ->
            {#{name := Name}, Root} = lists:keyfind(Root, 2, Roots),
            plain_hunt:left_out([Name, ": "], Crossed),
            {holds, To - From};
        {found, Seed, Report, Verdict} ->
            Lines = plain_answer:lines(Report, Asked, Translation),
            {Said, _} = plain_answer:why(Lines),
            Why = unicode:characters_to_binary(Said),
            case Verdict of
                refused -> {refused, Why};
                _ -> {fails, Seed, Why, plain_answer:text(Lines)}
            end;
        {answer, missing} -> {refused, "the program pulsefarm is not on the path"};
        {answer, {Said, _}} -> {refused, string:trim(Said)}
    end.

%% A line for each test, as soon as it is known.
-spec line(result()) -> result().
line({#{name := Name}, Result} = Whole) ->
    plain_out:put([Name, ": ", case Result of
        {holds, Number} -> io_lib:format("no failure in ~w seeds", [Number]);
        {fails, Seed, Why, _} -> [io_lib:format("seed ~w fails: ", [Seed]), Why];
        {refused, Why} -> ["refused: ", Why]
    end, "\n"]),
    Whole.

-spec reported([result()], asked()) -> 0..2.
reported(Results, #{words := Words}) ->
    Failing = [Result || {_, {fails, _, _, _}} = Result <- Results],
    Refused = [Result || {_, {refused, _}} = Result <- Results],
    [plain_out:put(["\n", Report]) || {_, {fails, _, _, Report}} <- Failing, plain_words:value("--test", Words, none) =/= none],
    plain_out:put(io_lib:format("~w ~s: ~w ~s, ~w refused~n", [length(Results), case Results of [_] -> "test"; _ -> "tests" end, length(Failing), case Failing of [_] -> "fails"; _ -> "fail" end, length(Refused)])),
    Written = case plain_words:value("--junit", Words, none) of
        none -> ok;
        File -> file:write_file(File, junit(Results))
    end,
    case {Written, Refused, Failing} of
        {{error, Reason}, _, _} -> complained(["--junit: ", file:format_error(Reason)]);
        {ok, [_ | _], _} -> 2;
        {ok, [], [_ | _]} -> 1;
        {ok, [], []} -> 0
    end.

%% The same as JUnit has it.
-spec junit([result()]) -> binary().
junit(Results) ->
    Count = fun(Kind) -> integer_to_list(length([x || {_, Result} <- Results, element(1, Result) =:= Kind])) end,
    Case = fun({#{module := Module, name := Name}, Result}) ->
        Head = ["<testcase classname=\"", atom_to_list(Module), "\" name=\"", plain_chart:escaped(unicode:characters_to_binary(Name)), "\""],
        case Result of
            {holds, _} -> [Head, "/>\n"];
            {fails, Seed, Why, Report} ->
                [Head, "><failure message=\"seed ", integer_to_list(Seed), ": ", plain_chart:escaped(iolist_to_binary(Why)), "\">",
                 plain_chart:escaped(iolist_to_binary(Report)), "</failure></testcase>\n"];
            {refused, Why} -> [Head, "><error message=\"", plain_chart:escaped(iolist_to_binary(Why)), "\"/></testcase>\n"]
        end
    end,
    iolist_to_binary(["<?xml version=\"1.0\" encoding=\"UTF-8\"?>\n<testsuite name=\"pulsefarm\" tests=\"", integer_to_list(length(Results)), "\" failures=\"",
                      Count(fails), "\" errors=\"", Count(refused), "\">\n", [Case(Result) || Result <- Results], "</testsuite>\n"]).
