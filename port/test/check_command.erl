%% @doc The program pulsefarm-erl: each race hunted by one command whose answer names the source's lines, and its other commands and words.
-module(check_command).
-export([check/0]).

-spec check() -> ok.
check() ->
    [reported(File) || File <- lists:sort(filelib:wildcard(checks:folder("../examples/*.erl")))],
    group(),
    replayed(),
    shrunk(),
    charted(),
    supervised(),
    several_files(),
    by_default(),
    gaps(),
    files(),
    looks(),
    late(),
    hidden(),
    waits(),
    refused(),
    into_a_file(),
    timed(),
    early(),
    one_node(),
    unread(),
    progress(),
    completed(),
    manual(),
    ok.

%% One command finds the race of a program and reports it by a line that the file names.
-spec reported(file:filename()) -> boolean().
reported(File) ->
    {ok, Text} = file:read_file(File),
    {match, [Line]} = re:run(Text, "^%% reported: (.*)$", [multiline, {capture, [1], list}]),
    Property = case re:run(Text, "^%% property: (.*)$", [multiline, {capture, [1], list}]) of
        {match, [Named]} -> ["--property", Named];
        nomatch -> []
    end,
    Patience = case re:run(Text, "^%% patience: early$", [multiline]) of nomatch -> []; _ -> ["--patience", "early"] end,
    {Answer, Status} = checks:command(["hunt", File, "--shrink", "30"] ++ Property ++ Patience),
    checks:expect(["status of ", File], 1, Status),
    checks:has(File, "^" ++ Line ++ "$", Answer).

-spec group() -> boolean().
group() ->
    Driver = checks:folder("otp/pg_members.erl"),
    [Group] = filelib:wildcard(filename:join(code:lib_dir(), "kernel-*/src/pg.erl")),
    {Answer, 1} = checks:command(["hunt", Driver, Group, "--root", "race"]),
    checks:has("pg", "^crash <0> at pg_members\\.erl:7 pg_members:'-race/0-fun-0-'/0|^crash <0> at pg_members\\.erl:7 ", Answer),
    checks:has("pg's server", "^<[0-9]+> gen_server pg$", Answer).

%% What a hunt found is run, shrunk and drawn again from its answer.
-spec replayed() -> boolean().
replayed() ->
    File = checks:folder("../examples/bank.erl"),
    {Found, 1} = checks:command(["hunt", File]),
    Room = checks:room("found"),
    ok = file:write_file(Room, Found),
    {Story, 1} = checks:command(["run", File, "--schedule", "@" ++ Room]),
    checks:has("a story", "^[0-9]+ <[0-9]+> calls <[0-9]+>: \\{set,alice,(5|10)\\}  % bank\\.erl:15 bank:deposit/2: gen_server:call\\(\\?MODULE, \\{set, Who, B \\+ N\\}\\)\\.$", Story),
    checks:has("where a call is taken", "^[0-9]+ <[0-9]+> takes the call of <[0-9]+>: \\{balance,alice\\}  % bank\\.erl:19 bank:handle_call/3: handle_call\\(\\{balance, Who\\}", Story),
    checks:has("a reply", "^[0-9]+ <[0-9]+> gets the reply: ok  % bank\\.erl:15 bank:deposit/2: gen_server:call", Story),
    checks:has("who starts a server", "^[0-9]+ <0> spawns <[0-9]+>, linked  % bank\\.erl:8 bank:start_link/0: start_link\\(\\) -> gen_server:start_link", Story),
    checks:has("its start", "^[0-9]+ <[0-9]+> answers <0>, which starts it: \\{ok,<[0-9]+>\\}$", Story),
    checks:has("a client", "^[0-9]+ <0> spawns <[0-9]+>, monitored by #Ref<[0-9]+>  % bank\\.erl:34 ", Story),
    checks:has("its stop", "^[0-9]+ <0> stops <[0-9]+>: normal  % bank\\.erl:37 bank:main/0: ok = gen_server:stop\\(Pid\\),$", Story),
    checks:has("its last line", "^[0-9]+ <0> ends: \\{\\{lost_update,[0-9]+\\},\\[\\]\\}  % bank\\.erl:38 bank:main/0: B =:= 15 orelse error\\(\\{lost_update, B\\}\\),$", Story),
    checks:expect("no service in a story", nomatch, re:run(Story, "service|deliver|#Ref<[0-9]+>,<|port@")),
    {Run, Status} = checks:command(["run", File, "--verbose", "--schedule", "@" ++ Room]),
    checks:expect("a run of what was found", 1, Status),
    checks:has("its crash", "^crash <0> at bank\\.erl:38 ", Run),
    checks:has("a place of an event", "^[0-9]+/[0-9]+ <[0-9]+> spawn_monitor <[0-9]+> #Ref<[0-9]+>  % bank\\.erl:34 bank:main/0$", Run),
    checks:has("a place of the source", "^[0-9]+/[0-9]+ <0> end \\{\\{lost_update,[0-9]+\\},\\[\\]\\}  % bank\\.erl:38 bank:main/0$", Run),
    {Shrunk, 1} = checks:command(["shrink", File, "--schedule", "@" ++ Room, "--runs", "20"]),
    checks:has("a shrinking", "^crash <0> at bank\\.erl:38 ", Shrunk),
    {Fixed, Holds} = checks:command(["hunt", File, "-D", "FIXED"]),
    checks:expect("the fixed bank", 0, Holds),
    checks:has("the fixed bank", "^no failure in 1000 seeds$", Fixed),
    {All, _} = checks:command(["hunt", checks:folder("../examples/cache.erl"), "--all", "--seeds", "0..50"]),
    checks:has("outcomes", "^fails [0-9]+ seeds, least [0-9]+: ended \\{loaded_twice,\\[\\]\\}$", All).

%% A shrinking keeps the failure, and has no more events and no more switches of process than the run that it began from.
-spec shrunk() -> boolean().
shrunk() ->
    Cache = checks:folder("../examples/cache.erl"),
    [kept(["hunt", Cache, "--verbose" | Property]) || Property <- [[], ["--property", "nocrash"], ["--property", "returns"]]],
    [kept(["hunt", checks:folder("corpus/own_" ++ Own ++ ".erl"), "--root", "race", "--verbose" | Property])
     || Own <- ["cache", "quota", "turnstile", "pool", "mailer"], Property <- [[], ["--property", "supervised"]]],
    {Ended, 1} = checks:command(["hunt", checks:folder("corpus/own_quota.erl"), "--root", "race"]),
    checks:has("a supervisor that ends as its parent does", "^ended <[0-9]+> as <0> did: error badarg$", Ended),
    {Refused, 2} = checks:command(["shrink", Cache, "-D", "FIXED", "--schedule", "0,1,0"]),
    checks:has("a schedule that doesn't fail", "^S1$", Refused).

-spec kept([string()]) -> boolean().
kept(Words) ->
    {Found, 1} = checks:command(Words),
    {Shrunk, 1} = checks:command(Words ++ ["--shrink", "20"]),
    Crash = fun(Answer) -> re:run(Answer, "^crash .*$", [multiline, {capture, first, list}]) end,
    checks:expect("the failure is kept", Crash(Found), Crash(Shrunk)),
    [Before, After] = [size_of(Answer) || Answer <- [Found, Shrunk]],
    checks:expect(io_lib:format("events and switches: ~w, and ~w", [Before, After]),
                  element(1, After) =< element(1, Before) andalso element(2, After) =< element(2, Before)).

%% How many events an answer has, and how many switches of process.
-spec size_of(string()) -> {non_neg_integer(), non_neg_integer()}.
size_of(Answer) ->
    {match, Turns} = re:run(Answer, "^[0-9]+/[0-9]+ (<[0-9]+>(?:-><[0-9]+>)?) ", [multiline, global, {capture, [1], list}]),
    Own = [Who || [Who] <- Turns, string:find(Who, "->") =:= nomatch],
    {length(Turns), length([x || {A, B} <- lists:zip(lists:droplast(Own), tl(Own)), A =/= B])}.

-spec charted() -> boolean().
charted() ->
    {Chart, _} = checks:command(["chart", checks:folder("../examples/bank.erl"), "--seed", "0", "--strategy", "pos"]),
    Svg = lists:nthtail(string:str(Chart, "<svg") - 1, Chart),
    checks:expect("a chart is markup", true, is_markup(Svg)),
    checks:has("a head", ">gen_server bank</text>", Chart),
    checks:has("a place in a title", "<title>end [^<]*, bank\\.erl:38 bank:main/0</title>", Chart),
    checks:has("an event in the words of the story", ">ends: \\{\\{lost_update,", Chart),
    checks:expect("heads are functions of the source, and no service has one", nomatch, re:run(Chart, "class=\"of\"[^>]*>(the service|[a-z]+/[0-9])")),
    checks:expect("nothing of services", nomatch, re:run(Svg, "port@|>register &lt;(clock|names|ticker)")),
    {Whole, _} = checks:command(["chart", checks:folder("../examples/bank.erl"), "--seed", "0", "--strategy", "pos", "--verbose"]),
    checks:has("with --verbose all", ">the service names</text>", Whole),
    checks:expect("and more rows", length(string:split(Whole, "data-event", all)) > length(string:split(Chart, "data-event", all)) + 40),
    rows_close_up(Chart),
    {Compact, _} = checks:command(["chart", checks:folder("../examples/bank.erl"), "--seed", "0", "--strategy", "pos", "--compact"]),
    checks:has("a compact chart too", "class=\"of\"[^>]*>gen_server bank</text>", Compact),
    checks:expect("and no service in it", nomatch, re:run(Compact, "port@|the service|register &lt;")),
    rows_close_up(Compact).

%% The rows that are there follow each other, but for the heads between.
-spec rows_close_up(string()) -> boolean().
rows_close_up(Chart) ->
    {match, Found} = re:run(Chart, "transform=\"translate\\([0-9]+ ([0-9]+)\\)\"", [global, {capture, [1], list}]),
    Rows = lists:usort([list_to_integer(Y) || [Y] <- Found]),
    Apart = [B - A || {A, B} <- lists:zip(lists:droplast(Rows), tl(Rows))],
    checks:expect(io_lib:format("rows are 26 apart: ~w", [Apart]), lists:all(fun(D) -> D =:= 26 orelse D =:= 78 end, Apart)).

-spec is_markup(string()) -> boolean().
is_markup(Text) ->
    Open = length([x || $< <- Text]),
    Open > 100 andalso Open =:= length([x || $> <- Text]) andalso string:str(Text, "</svg>") > 0.

%% An orderly shutdown is no crash; an error is one, and so is being killed by somebody else.
-spec supervised() -> boolean().
supervised() ->
    File = checks:folder("commands/supervised.erl"),
    Hunt = fun(Property, Words) -> checks:command(["hunt", File, "--seeds", "0..250", "--property", Property | Words]) end,
    {_, Counted} = Hunt("nocrash", []),
    checks:expect("nocrash counts a shutdown", 1, Counted),
    {Held, 0} = Hunt("supervised", []),
    checks:has("supervised doesn't", "^no failure in 250 seeds$", Held),
    {Broken, 1} = Hunt("supervised", ["-D", "BROKEN"]),
    checks:has("an error in a child", "^crash <[0-9]+> at supervised\\.erl:13 supervised:child/0: error broken$", Broken),
    {_, Killed} = Hunt("supervised", ["-D", "KILLED"]),
    checks:expect("killed by somebody else", 1, Killed),
    {Shrunk, 1} = Hunt("supervised", ["-D", "BROKEN", "--shrink", "50"]),
    checks:has("shrunk", "error broken$", Shrunk),
    {Run, 0} = checks:command(["run", File, "--property", "supervised", "--seed", "3"]),
    checks:has("a run judged", "^property holds$", Run).

-spec several_files() -> boolean().
several_files() ->
    Files = [checks:folder("commands/registry.erl"), checks:folder("commands/registry_server.erl")],
    {Answer, 1} = checks:command(["hunt" | Files]),
    checks:has("a crash in one of two files", "^crash <0> at registry\\.erl:10 registry:main/0: error \\{badmatch,\\[yours,yours\\]\\}$", Answer),
    {Other, 0} = checks:command(["run" | Files] ++ ["--root", "other"]),
    checks:has("another root", "^finished fine$", Other),
    Out = checks:room("registry.out.erl"),
    {_, 0} = checks:command(["translate" | Files] ++ ["-o", Out]),
    {ok, Map} = file:read_file(Out ++ ".map"),
    checks:has("the map", "^[0-9]+ registry_server\\.erl:[0-9]+ registry_server@take/1$", binary_to_list(Map)),
    {Checked, 0} = checks:command(["check" | Files]),
    checks:has("check", "^ok$", Checked).

%% Without a word a hunt finds a hang and a crash beside the root, and passes a clean stop.
-spec by_default() -> boolean().
by_default() ->
    File = checks:folder("commands/stops.erl"),
    {Clean, 0} = checks:command(["hunt", File, "--seeds", "0..60"]),
    checks:has("a clean stop", "^no failure in 60 seeds$", Clean),
    {Hang, 1} = checks:command(["hunt", File, "-D", "HANGS", "--seeds", "0..60"]),
    checks:has("a hang", "^waits <0> at stops\\.erl:17 stops:last/0$", Hang),
    {Crash, 1} = checks:command(["hunt", File, "-D", "CRASHES", "--seeds", "0..60"]),
    checks:has("a crash beside the root", "^crash <[0-9]+> at stops\\.erl:20 stops:last/0: error badarg$", Crash),
    {Run, 0} = checks:command(["run", File, "--seed", "3"]),
    checks:has("a run that holds", "^property holds$", Run),
    {Uniform, 1} = checks:command(["hunt", File, "-D", "HANGS", "--strategy", "uniform", "--seeds", "3..=9", "--workers", "2"]),
    checks:has("by another strategy", "^seed 3\nschedule ", Uniform),
    {Timed, 0} = checks:command(["hunt", File, "--for", "1s"]),
    checks:has("for a time", "^stopped after [0-9]+ seeds\nno failure in [0-9]+ seeds$", Timed).

%% Who calls what the translator lacks is refused, whatever catches errors there, and never reported as a failure of the program.
-spec gaps() -> boolean().
gaps() ->
    File = checks:folder("commands/gap.erl"),
    Refused = fun(Name, Words, Line) ->
        {Answer, Status} = checks:command(Words),
        checks:expect(["status of ", Name], 2, Status),
        checks:has(Name, Line, Answer)
    end,
    Refused("a gap in a hunt", ["hunt", File], "^no verdict$"),
    Refused("what is lacking", ["hunt", File], "^refused <0> at gap\\.erl:8 gap:main/0: erlang:statistics/1 is not translated, or not with these arguments$"),
    Refused("a gap in a run", ["run", File], "^ended \\{refused,erlang,statistics,1\\}\nsteps [0-9]+\nno verdict$"),
    Refused("a gap by another property", ["hunt", File, "--property", "returns"], "^no verdict$"),
    Refused("a gap among outcomes", ["hunt", File, "--all", "--seeds", "0..5"], "^refused 5 seeds, least 0: ended \\{refused,erlang,statistics,1\\}$"),
    Refused("a module that isn't there", ["run", File, "--root", "other"], "^refused <0> after gap\\.erl:12 gap:other/0: file:read_file/1 is not translated"),
    Refused("a number of a machine's library", ["run", File, "--root", "measure"], "^refused <0> .*: math:exp/1 is not translated"),
    Refused("a link that two change", ["run", File, "--root", "tied"], "^refused <0> .*: erlang:process_info/2 is not translated"),
    Refused("an answer to another request", ["run", File, "--root", "between"], "^refused <0> .*: gen:receive_response/3 is not translated").

%% A race by a table of ets, and one by a table of dets, whose requests are in the story as the source has them.
-spec files() -> boolean().
files() ->
    {Answer, 1} = checks:command(["hunt", checks:folder("commands/files.erl")]),
    checks:has("a table is read", "^[0-9]+ <[0-9]+> dets:lookup\\(jobs,n\\)  % files\\.erl:14 files:one/1: ", Answer),
    checks:has("it is written", "^[0-9]+ <[0-9]+> dets:insert\\(jobs,\\[\\{n,1\\}\\]\\)  % files\\.erl:15 files:one/1: ", Answer),
    checks:has("the race", "^crash <0> at files\\.erl:10 files:main/0: error \\{badmatch,\\[\\{n,1\\}\\]\\}$", Answer),
    checks:expect("no service", nomatch, re:run(Answer, "port@|#Ref")),
    {Cached, 1} = checks:command(["hunt", checks:folder("corpus/own_cache.erl"), "--root", "race"]),
    checks:has("a table of ets is read", "^[0-9]+ <[0-9]+> ets:lookup\\(cache,k\\)  % own_cache\\.erl:25 own_cache:read/1: case ets:lookup\\(cache, Key\\) of$",
               Cached).

%% Each word of each command is among the completions of each shell.
-spec completed() -> ok.
completed() ->
    Text = fun(Shell) -> {ok, Read} = file:read_file(checks:folder("../pulsefarm-erl." ++ Shell)), Read end,
    {match, Lines} = re:run(Text("bash"), "^    ([a-z]+)\\) echo \"\\$all (.*)\"", [multiline, global, {capture, [1, 2], list}]),
    checks:expect("nine commands", 9, length(Lines)),
    Of = fun(Line, Words) -> [Word || Word <- Words, string:find(Line, Word) =:= nomatch] end,
    [begin
         {match, [Zsh]} = re:run(Text("zsh"), ["^    ", Command, "\\) own=\\((.*)\\)"], [multiline, {capture, [1], list}]),
         checks:expect([Command, " in zsh"], [], Of(Zsh, string:lexemes(Words, " "))),
         {match, Fish} = re:run(Text("fish"), ["subcommand_from ", Command, "\" (.*)$"], [multiline, global, {capture, [1], list}]),
         checks:expect([Command, " in fish"], [], Of(lists:append(Fish), ["-l " ++ lists:nthtail(2, Word) || "--" ++ _ = Word <- string:lexemes(Words, " ")])),
         checks:expect([Command, " takes them"], [], [Word || Word <- string:lexemes(Words, " "), lacks_word(Command, Word)])
     end || [Command, Words] <- Lines],
    ok.

%% Whether a command says that it lacks a word.
-spec lacks_word(string(), string()) -> boolean().
lacks_word(Command, Word) ->
    Given = case lists:member(Word, ["--all", "--leaks", "--all-roots", "--fail-fast", "--one-node", "--verbose", "--explain", "--compact"]) of true -> [Word]; false -> [Word, "1"] end,
    case plain_words:read([Command, "some.erl" | Given]) of
        {refused, Sentence} -> re:run(Sentence, "has no word|isn't known") =/= nomatch;
        _ -> false
    end.

%% The page for man names each command, and each word that pulsefarm hasn't too.
-spec manual() -> boolean().
manual() ->
    {Help, 0} = checks:command(["--help"]),
    {ok, Page} = file:read_file(checks:folder("../pulsefarm-erl.1")),
    {ok, Other} = file:read_file(checks:folder("../../docs/pulsefarm.1")),
    Plain = fun(Text) -> lists:flatten(string:replace(binary_to_list(Text), "\\-", "-", all)) end,
    {match, Words} = re:run(Help, "--[a-z][a-z-]*", [global, {capture, first, list}]),
    Lacking = [Word || [Word] <- lists:usort(Words), Word =/= "--help", string:find(Plain(Page), Word) =:= nomatch,
                       string:find(Plain(Other), Word) =:= nomatch],
    checks:expect("words of the page", [], Lacking),
    {match, Commands} = re:run(Help, "^  pulsefarm-erl ([a-z]+) ", [global, multiline, {capture, [1], list}]),
    checks:expect("commands of the page", {9, []},
                  {length(Commands),
                   [Name || [Name] <- Commands, string:find(Plain(Page), ".B " ++ Name ++ "\n") =:= nomatch]}).

%% What a process does to answer for its mailbox isn't part of a story.
-spec looks() -> boolean().
looks() ->
    {Story, 0} = checks:command(["run", checks:folder("commands/looks.erl"), "--seed", "5"]),
    checks:has("a story of who is asked", "^[0-9]+ <[0-9]+> receives go  % looks\\.erl:7 ", Story),
    checks:has("what it was", "^finished \\[\\{message_queue_len,2\\},\\{messages,\\[one,two\\]\\}\\]$", Story),
    {Slept, 0} = checks:command(["run", checks:folder("commands/looks.erl"), "--root", "sleeps", "--never", "1000"]),
    checks:has("with --never", "^finished \\{message_queue_len,0\\}$", Slept),
    checks:expect("nothing of looks", nomatch, re:run(Story, "port@|flush|receives (one|two)|sends <[0-9]+>: #Ref")).

%% A call within a try has its line, and the answer that comes after it timed out is dropped and isn't reported.
-spec late() -> boolean().
late() ->
    {Story, 0} = checks:command(["run", checks:folder("commands/late.erl"), "--seed", "5"]),
    checks:has("a call within a try", "^[0-9]+ <0> calls <[0-9]+>: slow  % late\\.erl:13 late:main/0: R = try gen_server:call", Story),
    checks:has("a call that is answered in time", "^[0-9]+ <0> gets the reply: quick  % late\\.erl:12 late:main/0: ", Story),
    checks:has("the answer that is late", "^[0-9]+ <[0-9]+> replies to <0>: slow$", Story),
    checks:has("nothing is got", "^finished \\{given_up,nothing\\}$", Story),
    checks:expect("it isn't reported", nomatch, re:run(Story, "gets the reply: slow|receives|late>|port@")).

-spec hidden() -> boolean().
hidden() ->
    {Answer, 1} = checks:command(["run", checks:folder("commands/hidden.erl"), checks:folder("commands/hides.erl")]),
    checks:has("functions that aren't exported", "^finished inside$", Answer),
    checks:has("the one that is started", "^crash <1> at hidden\\.erl:9 hidden:main/0: error undef$", Answer).

%% A deadlock is reported by the lines of the receives.
-spec waits() -> boolean().
waits() ->
    {Answer, 1} = checks:command(["hunt", checks:folder("commands/waiting.erl")]),
    checks:has("the root waits", "^waits <0> at waiting\\.erl:14 waiting:main/0$", Answer),
    checks:has("a fun waits", "^waits <[12]> at waiting\\.erl:8 waiting:main/0$", Answer),
    checks:has("a function waits", "^waits <[12]> at waiting\\.erl:21 waiting:second/0$", Answer).

%% What is written before and after an answer in the same file keeps its place.
-spec into_a_file() -> boolean().
into_a_file() ->
    File = checks:room("log"),
    Program = filename:join([os:getenv("CHECKS"), "..", "pulsefarm-erl"]),
    Bank = checks:folder("../examples/bank.erl"),
    os:cmd(lists:flatten(io_lib:format("bash -c '(echo before; ~ts check ~ts; echo between; ~ts check ~ts; echo after) > ~ts 2> /dev/null'", [Program, Bank, Program, Bank, File]))),
    {ok, Text} = file:read_file(File),
    checks:expect("two commands into one file", <<"before\nok\nbetween\nok\nafter\n">>, Text).

-spec refused() -> boolean().
refused() ->
    Expect = fun(Name, Words, Environment, Expression) ->
        {Answer, Status} = checks:command(Words, Environment),
        checks:expect(["status of ", Name], 2, Status),
        checks:has(Name, Expression, Answer)
    end,
    File = checks:folder("../examples/bank.erl"),
    Expect("a construct", ["check", checks:folder("refused/refused_hash.erl")], [], "^refused_hash\\.erl:3: erlang:phash2/1 is a hash, "),
    Expect("no pulsefarm", ["run", File], [{"PULSEFARM", ""}, {"PATH", os:getenv("NO_FARM_PATH", "/usr/bin:/bin")}], "^pulsefarm-erl: the program pulsefarm "),
    Expect("a word", ["walk", File], [], "^pulsefarm-erl: no command walk"),
    Expect("no file", ["hunt"], [], "^pulsefarm-erl: no file"),
    Expect("a file that isn't there", ["hunt", "nothing.erl"], [], "^nothing\\.erl:1: there is no such file"),
    Expect("a folder", ["check", checks:folder("commands")], [], "^commands:1: this is a folder; name its files"),
    Expect("a compiled file", ["check", code:which(?MODULE)], [], "^check_command\\.beam:1: this is compiled without debug_info; name its source"),
    Expect("a root that isn't there", ["run", File, "--root", "nothing"], [], "^bank\\.erl:1: the module exports no function nothing/0"),
    Expect("a patience", ["run", File, "--patience", "much"], [], "^pulsefarm-erl: --patience wants a number"),
    Expect("a patience of hunt", ["run", File, "--patience", "mixed"], [], "^pulsefarm-erl: --patience mixed is of hunt"),
    Expect("one node by another property", ["hunt", File, "--one-node", "--property", "nocrash"], [], "^pulsefarm-erl: --one-node goes with "),
    Expect("a word that would be ignored", ["check", File, "--limit", "5"], [], "^pulsefarm-erl: check has no word --limit"),
    Expect("another", ["run", File, "--seeds", "0..5"], [], "^pulsefarm-erl: run has no word --seeds"),
    Expect("all outcomes by a property of this part", ["hunt", File, "--all", "--property", "sound"], [], "^pulsefarm-erl: --all goes with "),
    Expect("a strategy that there isn't", ["hunt", File, "--property", "supervised", "--strategy", "nonsense"], [], "."),
    Expect("words of pulsefarm", ["run", File, "--seed", "x"], [], "."),
    {Help, 0} = checks:command(["--help"]),
    checks:has("help", "tested and not proved", Help),
    {Version, 0} = checks:command(["--version"]),
    checks:has("version", "^pulsefarm-erl [0-9.]+$", Version),
    {Words, 0} = {os:cmd(lists:flatten(io_lib:format("bash -c '. ~ts; for c in translate check run hunt shrink chart eunit prop; do _pulsefarm_erl_words $c; done'",
                                                     [checks:folder("../pulsefarm-erl.bash")]))), 0},
    Unknown = [Word || Word <- lists:usort(string:lexemes(Words, " \n")), string:find(Help ++ " --seed --schedule --strategy --weights --edition --workers --all --for "
                                                                                        "--runs --page --compact --explain --limit --shrink ", Word) =:= nomatch],
    checks:expect("the words of the completions stand in the help", [], Unknown).

%% No time passes while others go on.
-spec timed() -> boolean().
timed() ->
    File = checks:folder("commands/patient.erl"),
    {ok, Out, _} = checks:translate([File]),
    Late = lists:sum([Number || {fails, Number, _} <- checks:hunt(Out, "main", "nocrash", "0..1000")]),
    checks:expect("seeds of 1000 that see a time pass", 0, Late),
    {ok, Eager, _} = checks:translate([File], #{library_defines => [{'PATIENCE', 0}]}),
    Early = lists:sum([Number || {fails, Number, _} <- checks:hunt(Eager, "main", "nocrash", "0..1000")]),
    checks:expect("without patience some pass", Early > 50),
    {ok, Never, _} = checks:translate([File], #{never => 1000}),
    checks:expect("and with --never none of the receive", true, is_list(checks:hunt(Never, "main", "nocrash", "0..10"))).

%% A time of seconds or of milliseconds passes only where nobody else may go, unless a patience is given.
-spec early() -> boolean().
early() ->
    File = checks:folder("commands/seconds.erl"),
    [answered(File, Root) || Root <- ["answered", "short", "bank"]],
    {ok, Long, _} = checks:translate([File], #{root => {all, [hour, second]}}),
    checks:expect("an hour takes as many steps as a second", checks:run(Long, "hour", 1), checks:run(Long, "second", 1)),
    {Eager, 1} = checks:command(["hunt", File, "--root", "answered", "--seeds", "0..40", "--patience", "0"]),
    checks:has("with a patience it is one", "^crash <0> at seconds\\.erl:9 seconds:answered/0: exit too_late$", Eager),
    {Mixed, 1} = checks:command(["hunt", File, "--root", "answered", "--seeds", "0..80", "--patience", "mixed"]),
    checks:has("by halves", "^no failure in 40 seeds$", Mixed),
    checks:has("by halves", "^pulsefarm-erl: the second half, by --patience early:$", Mixed),
    checks:has("by halves", "^crash <0> at seconds\\.erl:9 seconds:answered/0: exit too_late$", Mixed),
    {Lost, 1} = checks:command(["hunt", File, "--root", "lost", "--seeds", "0..40"]),
    checks:has("a time that passes where nobody else may go", "^crash <0> at seconds\\.erl:14 seconds:lost/0: exit too_late$", Lost),
    {Ordered, 0} = checks:command(["hunt", File, "--root", "ordered", "--seeds", "0..40"]),
    checks:has("times pass in the order of their deadlines", "^no failure in 40 seeds$", Ordered).

%% What one node can't show is left out, and what it can is found.
-spec one_node() -> boolean().
one_node() ->
    Words = ["hunt", checks:folder("commands/one_node.erl"), "--seeds", "0..60"],
    {Crossed, 1} = checks:command(Words),
    checks:has("signals that cross", "^crash <0> at one_node\\.erl:9 one_node:main/0: error \\{badmatch,nothing\\}$", Crossed),
    {One, 0} = checks:command(Words ++ ["--one-node"]),
    checks:has("one node", "^pulsefarm-erl: [0-9]+ of these seeds fail by signals in an order that one node doesn't show, and are left out$", One),
    checks:has("one node", "^no failure in 60 seeds$", One),
    {Race, 1} = checks:command(Words ++ ["--one-node", "--root", "race"]),
    checks:has("a race on one node", "^crash <0> at one_node\\.erl:15 one_node:race/0: error \\{badmatch,nothing\\}$", Race).

-spec answered(file:filename(), string()) -> boolean().
answered(File, Root) ->
    [begin
         {Answered, 0} = checks:command(["hunt", File, "--root", Root | Words]),
         checks:has([Root, ": no time passes"], "^no failure in 1000 seeds$", Answered),
         checks:expect([Root, ": and no seed is left out"], nomatch, string:find(Answered, "of these seeds"))
     end || Words <- [[], ["--strategy", "uniform"], ["--weights", "1:9"]]],
    {Early, 1} = checks:command(["run", File, "--root", Root, "--schedule", "none"]),
    checks:has([Root, ": a schedule that chooses the ticker early"], "^pulsefarm-erl: here a time passes while others may go; no hunt finds such a run$", Early).

%% Where nobody reads its answer it ends as pulsefarm does, with 141, and where its output is full it says so.
-spec unread() -> boolean().
unread() ->
    Words = ["run ", checks:folder("../examples/bank.erl"), " --seed 0 2> /dev/null"],
    checks:expect("a reader that is gone", "141\n", shell([Words, " | true; echo ${PIPESTATUS[0]}"])),
    checks:expect("an output that is full", "2\n", shell([Words, " > /dev/full; echo $?"])).

-spec shell(iodata()) -> string().
shell(Words) ->
    Program = filename:join([os:getenv("CHECKS"), "..", "pulsefarm-erl"]),
    os:cmd(lists:flatten(io_lib:format("bash -c '~ts ~ts'", [Program, Words]))).

%% Progress is printed on a terminal alone.
-spec progress() -> boolean() | ok.
progress() ->
    case os:find_executable("script") of
        false -> io:format("  there is no script, which makes a terminal, so what is shown on one is left out~n");
        _ -> on_a_terminal()
    end.

-spec on_a_terminal() -> boolean().
on_a_terminal() ->
    Words = ["hunt ", checks:folder("../examples/bank.erl"), " -D FIXED --seeds 0..500"],
    Program = filename:join([os:getenv("CHECKS"), "..", "pulsefarm-erl"]),
    Shown = os:cmd(lists:flatten(io_lib:format("script -qec '~ts ~ts' /dev/null", [Program, Words]))),
    checks:has("on a terminal", "\r\e\\[K250 of 500 seeds\r\e\\[K", Shown),
    checks:has("and the answer", "no failure in 500 seeds", Shown),
    checks:expect("in a file there is none", nomatch, string:find(shell([Words, " 2>&1"]), "of 500 seeds")).
