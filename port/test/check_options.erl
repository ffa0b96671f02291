%% @doc The words of pulsefarm-erl that say what is hunted and how it is reported: JSON, leaks, all roots, where processes are, and the values that
%% fit no clause.
-module(check_options).
-export([check/0]).

-spec check() -> ok.
check() ->
    json(),
    objects(),
    leaks(),
    roots(),
    first_that_fails(),
    folder(),
    explained(),
    clauses(),
    refused(),
    ok.

%% The answer of a command has each of these lines.
-spec prints(string(), [string()], non_neg_integer(), [string()]) -> string().
prints(Name, Words, Status, Expressions) ->
    {Answer, Seen} = checks:command(Words),
    checks:expect(["status of ", Name], Status, Seen),
    [case re:run(Answer, Expression, [multiline]) of
        nomatch ->
            io:format("  ~ts~n", [lists:nthtail(max(0, length(Answer) - 600), Answer)]),
            checks:expect([Name, " has ", Expression], false);
        _ -> checks:expect(Name, true)
    end || Expression <- Expressions],
    Answer.

-spec command_file(string()) -> file:filename().
command_file(Name) -> checks:folder("commands/" ++ Name).

%% As JSON each line is an object, and what is of the source has its file and line.
-spec json() -> boolean().
json() ->
    File = checks:folder("../examples/bank.erl"),
    Crash = "^\\{\"crash\":\"<0>\",\"file\":\"[^\"]*bank\\.erl\",\"line\":38,\"function\":\"bank:main/0\",\"class\":\"error\",\"reason\":\"\\{lost_update,(5|10)\\}\"\\}$",
    Event = "^\\{\"event\":[0-9]+,\"choice\":[0-9]+,\"count\":[0-9]+,\"actor\":\"<0>\",\"label\":\"ends: \\{\\{lost_update,[0-9]+\\},\\[\\]\\}\",\"file\":\"[^\"]*bank\\.erl\","
            "\"line\":38,\"function\":\"bank:main/0\",\"source\":\"B =:= 15 orelse error\\(\\{lost_update, B\\}\\),\"\\}$",
    Found = prints("a hunt as JSON", ["hunt", File, "--format", "json"], 1,
                  ["^\\{\"seed\":[0-9]+\\}$", "^\\{\"schedule\":\"[0-9,]+\"\\}$", Event, "^\\{\"ended\":\"\\{\\{lost_update,(5|10)\\},\\[\\]\\}\"\\}$",
                   "^\\{\"steps\":[0-9]+\\}$", "^\\{\"property\":\"fails\"\\}$", "^\\{\"process\":\"<0>\",\"runs\":\"bank:main/0\"\\}$", Crash]),
    {match, [Schedule]} = re:run(Found, "^\\{\"schedule\":\"([0-9,]+)\"\\}$", [multiline, {capture, [1], list}]),
    Run = prints("a run as JSON", ["run", File, "--format", "json", "--verbose", "--schedule", Schedule], 1,
                [Crash, "^\\{\"choice\":[0-9]+,\"count\":[0-9]+,\"actor\":\"<[0-9]+>-><[0-9]+>\",\"label\":\"deliver message\"\\}$"]),
    prints("a shrinking as JSON", ["shrink", File, "--format", "json", "--schedule", Schedule, "--runs", "5"], 1, [Crash, "^\\{\"(partial|complete)\":true\\}$"]),
    prints("no failure as JSON", ["hunt", File, "--format", "json", "-D", "FIXED", "--seeds", "0..9"], 0, ["^\\{\"failure\":false,\"seeds\":9\\}$"]),
    prints("outcomes as JSON", ["hunt", File, "--format", "json", "--all", "--seeds", "0..30"], 1,
          ["^\\{\"property\":\"(holds|fails)\",\"seeds\":[0-9]+,\"least\":[0-9]+,\"(finished|ended)\":"]),
    prints("an end that passes a reason on, as JSON", ["hunt", checks:folder("corpus/own_quota.erl"), "--root", "race", "--format", "json"], 1,
          ["^\\{\"ended\":\"<[0-9]+>\",\"as\":\"<0>\",\"class\":\"error\",\"reason\":\"badarg\"\\}$"]),
    prints("what is refused, as JSON", ["run", command_file("gap.erl"), "--format", "json"], 2,
          ["^\\{\"refused\":\"<0>\",\"file\":\"[^\"]*gap\\.erl\",\"line\":8,\"function\":\"gap:main/0\",\"lacks\":\"erlang:statistics/1\","]),
    prints("a place before the end, as JSON", ["run", command_file("gap.erl"), "--root", "other", "--format", "json"], 2,
          ["^\\{\"refused\":\"<0>\",\"file\":\"[^\"]*gap\\.erl\",\"line\":12,\"function\":\"gap:other/0\",\"after\":true,\"lacks\":\"file:read_file/1\","]),
    prints("a check as JSON", ["check", File, "--format", "json"], 0, ["^\\{\"ok\":true\\}$"]),
    {Text, 1} = checks:command(["hunt", File, "--format", "text"]),
    checks:expect("text is printed without the word", {Text, 1}, checks:command(["hunt", File])),
    checks:expect("each line is an object", [], [Line || Line <- string:split(Found ++ Run, "\n", all), Line =/= "", not is_object(Line)]).

%% Whether a line is an object, by a reader of JSON that others wrote, where one is there.
-spec is_object(string()) -> boolean().
is_object(Line) ->
    lists:prefix("{", Line) andalso lists:suffix("}", Line) orelse lists:prefix("note: ", Line).

%% All objects of an answer are read by another program.
-spec objects() -> boolean().
objects() ->
    case os:find_executable("python3") of
        false -> true;
        Python ->
            Script = "import json,sys\nfor l in sys.stdin:\n  d=json.loads(l)\n  assert type(d) is dict and d\nprint('read')",
            Program = filename:join([os:getenv("CHECKS"), "..", "pulsefarm-erl"]),
            Call = io_lib:format("~ts hunt ~ts --root served --format json 2> /dev/null | ~ts -c \"~ts\"", [Program, command_file("clauses.erl"), Python, Script]),
            checks:expect("a reader of JSON", "read\n", os:cmd(lists:flatten(Call)))
    end.

%% Who is left by the root is shown by the line where it waits; the services of the translation don't count.
-spec leaks() -> string().
leaks() ->
    File = command_file("leaks.erl"),
    Words = ["hunt", File, "--seeds", "0..40", "--leaks"],
    prints("a leak in each run", Words, 1,
          ["^seed 0$", "^waits <[0-9]+> at leaks\\.erl:28 leaks:serve/1$", "^property fails$", "^pulsefarm-erl: 1 process still waits although the root returned: seed 0$"]),
    prints("the same as JSON", Words ++ ["--format", "json"], 1, ["^\\{\"waits\":\"<[0-9]+>\",\"file\":\"[^\"]*leaks\\.erl\",\"line\":28,\"function\":\"leaks:serve/1\"\\}$"]),
    prints("a leak in some runs", Words ++ ["-D", "STOPPED"], 1, ["^waits <[0-9]+> at leaks\\.erl:28 leaks:serve/1$", "^property fails$"]),
    prints("no leak", Words ++ ["-D", "FIXED"], 0, ["^no failure in 40 seeds$"]),
    prints("no crash either", Words ++ ["-D", "FIXED", "--property", "supervised"], 0, ["^no failure in 40 seeds$"]),
    prints("a leak that isn't asked for", ["hunt", File, "--seeds", "0..40"], 0, ["^no failure in 40 seeds$"]),
    prints("a run that leaves one", ["run", File, "--seed", "3"], 0, ["^property holds$", "^pulsefarm-erl: 1 process still waits although the root returned$"]).

%% All roots of a file, each with a line.
-spec roots() -> string().
roots() ->
    File = command_file("roots.erl"),
    Words = ["hunt", File, "--all-roots", "--seeds", "0..20"],
    Holds = "^roots\\.erl holds: no failure in 20 seeds$",
    Crash = "^roots\\.erl crashes: seed 0 fails: crash <0> at roots\\.erl:15 roots:helper/1: error function_clause for \\(\"three\"\\)$",
    Hang = "^roots\\.erl hangs: seed 0 fails: waits <0> at roots\\.erl:13 roots:hangs/0$",
    prints("all roots", Words, 1, [Holds, Crash, Hang, "^1 file, 3 roots: 2 fail, 0 refused$"]),
    prints("all roots as JSON", Words ++ ["--format", "json"], 1,
          ["^\\{\"file\":\"roots\\.erl\",\"root\":\"holds\",\"failure\":false,\"seeds\":20\\}$",
           "^\\{\"file\":\"roots\\.erl\",\"root\":\"crashes\",\"failure\":true,\"seed\":0,\"why\":\\{\"crash\":\"<0>\",\"file\":\"[^\"]*roots\\.erl\",\"line\":15,"
           "\"function\":\"roots:helper/1\",\"class\":\"error\",\"reason\":\"function_clause\",\"arguments\":\"\\\\\"three\\\\\"\"\\}\\}$",
           "^\\{\"files\":1,\"roots\":3,\"fail\":2,\"refused\":0\\}$"]),
    prints("a root that can't be translated", Words ++ ["-D", "LACKING"], 2,
          ["^roots\\.erl lacks: refused: .*file:list_dir/1", Holds, Crash, Hang, "^1 file, 4 roots: 2 fail, 1 refused$"]),
    prints("all roots for a time", ["hunt", File, "--all-roots", "--for", "1s"], 1, [Crash, "^roots\\.erl holds: stopped after [0-9]+ seeds, no failure$"]).

-spec first_that_fails() -> boolean().
first_that_fails() ->
    Answer = prints("to the first that fails", ["hunt", command_file("roots.erl"), "--all-roots", "--fail-fast", "--seeds", "0..20"], 1,
                   ["^roots\\.erl crashes: seed 0 fails: ", "^1 file, 1 root: 1 fails, 0 refused$"]),
    checks:expect("nothing after it", nomatch, re:run(Answer, "hangs|holds")).

%% The roots of a folder by their names: of each file, and of its folders; servers are none.
-spec folder() -> string().
folder() ->
    Folder = checks:folder("folder"),
    One = "^account_race\\.erl one_test: no failure in 200 seeds$",
    Two = "^account_race\\.erl two_race: seed [0-9]+ fails: crash <0> at account_race\\.erl:14 account_race:two_race/0: error \\{badmatch,1\\}$",
    Main = "^account_holds\\.erl main: no failure in 200 seeds$",
    prints("a folder", ["hunt", Folder, "--seeds", "0..200"], 1, [One, Two, Main, "^3 files, 3 roots: 1 fails, 0 refused$"]),
    prints("all roots of a folder", ["hunt", Folder, "--all-roots", "--seeds", "0..200"], 1,
          ["^account\\.erl start: no failure", "^account_race\\.erl helper: seed 0 fails: ", One, Two, Main, "^3 files, 5 roots: 2 fail, 0 refused$"]),
    prints("a folder for a time", ["hunt", Folder, "--for", "2s"], 1,
          [Two | ["^account_" ++ Root ++ ": stopped after [1-9][0-9]+ seeds, no failure$" || Root <- ["race\\.erl one_test", "holds\\.erl main"]]]),
    ok = filelib:ensure_path(checks:room("nothing")),
    prints("a folder without files", ["hunt", checks:room("nothing")], 2, ["^pulsefarm-erl: no file; name one or more \\.erl files$"]),
    ok = file:write_file(checks:room("nothing/none.erl"), "-module(none).\n-export([start_link/0]).\nstart_link() -> ok.\n"),
    prints("a folder without roots", ["hunt", checks:room("nothing")], 2, ["^pulsefarm-erl: the folder has no file with a root; "]),
    prints("a folder with a root", ["hunt", Folder, "--root", "main"], 2, ["^pulsefarm-erl: the roots of a folder are found by their names; name files with --root$"]).

%% Where each process is at the end.
-spec explained() -> string().
explained() ->
    prints("how processes stand", ["run", command_file("leaks.erl"), "--seed", "3", "--explain"], 0,
          ["^pulsefarm-erl: <0> leaks:main/0 ended normally$", "^pulsefarm-erl: <[0-9]+> .* waits at leaks\\.erl:28 leaks:serve/1$"]),
    prints("how one failed", ["run", command_file("roots.erl"), "--root", "crashes", "--explain"], 1,
          ["^pulsefarm-erl: <0> roots:crashes/0 failed at roots\\.erl:15 roots:helper/1: error function_clause$"]),
    prints("by a property of pulsefarm", ["run", command_file("roots.erl"), "--root", "hangs", "--explain", "--property", "returns"], 1,
          ["^pulsefarm-erl: <0> roots:hangs/0 waits at roots\\.erl:13 roots:hangs/0$"]).

%% The values that fit no clause stand in the report, texts as texts.
-spec clauses() -> string().
clauses() ->
    Of = fun(Root, Status, Expressions) -> prints(Root, ["run", command_file("clauses.erl"), "--root", Root], Status, Expressions) end,
    Of("main", 1, ["^crash <0> at clauses\\.erl:9 clauses:take/3: error function_clause for \\(\\{name,\"Ada\"\\},7,<<\"bytes\">>\\)$"]),
    Of("branch", 1, ["^crash <0> at clauses\\.erl:12 clauses:branch/0: error \\{case_clause,\\{answer,\"a text\"\\}\\}$"]),
    Of("match", 1, ["^crash <0> at clauses\\.erl:17 clauses:match/0: error \\{badmatch,\\{answer,\"a text\"\\}\\}$"]),
    Of("served", 1, ["^crash <[0-9]+> at clauses\\.erl:38 clauses:handle_cast/2: error function_clause for \\(\\{set,\"blue\"\\},#\\{colour => \"red\"\\}\\)$"]),
    Of("caught", 0, ["^finished ok$"]).

%% What a word can't mean is refused in one line.
-spec refused() -> [string()].
refused() ->
    File = checks:folder("../examples/bank.erl"),
    [prints(Line, Words, 2, ["^pulsefarm-erl: " ++ Line ++ "$"]) || {Words, Line} <-
        [{["hunt", File, "--compact"], "hunt has no word --compact; it is of chart"},
         {["run", File, "--leaks"], "run has no word --leaks; it is of hunt"},
         {["run", File, "--all-roots"], "run has no word --all-roots; it is of hunt, and eunit hunts the tests of an application"},
         {["hunt", File, "--explain"], "hunt has no word --explain; it is of run and check"},
         {["chart", File, "--format", "json"], "chart has no word --format; it is of hunt, explore, run, shrink and check; eunit has --junit"},
         {["hunt", File, "--format", "xml"], "--format wants text or json, and not xml"},
         {["hunt", File, "--format"], "the word --format wants a value, or isn't known"},
         {["hunt", File, "--fail-fast"], "--fail-fast goes with --all-roots"},
         {["hunt", File, "--all-roots", "--root", "main"], "--all-roots and --root don't go together"},
         {["hunt", File, "--all-roots", "--shrink", "9"], "--all-roots and --shrink don't go together"},
         {["hunt", File, "--all-roots", "--property", "true"], "--all-roots goes with --property sound, or supervised"},
         {["hunt", File, "--leaks", "--shrink", "9"], "--shrink and --leaks don't go together"},
         {["hunt", File, "--leaks", "--all"], "--all and --leaks don't go together"},
         {["hunt", File, "--leaks", "--property", "nocrash"], "--leaks goes with --property sound, or supervised"}]].
