%% @doc Modules with processes that others wrote, unchanged: of each the scenario of `corpus/modules.txt' has the
%% value that it has on Erlang in each of 2,000 seeds, and no failure by default words. The drivers beside it have more,
%% and a `race' that a hunt by default words finds within its 1,000 seeds.
%% Debian's packages are fetched for it, and nothing of them is kept; what can't be fetched is left out, and reported.
-module(check_corpus).
-export([check/0]).

-define(SEEDS, "0..2000").

-spec check() -> ok.
check() ->
    Drivers = lists:sort(filelib:wildcard(checks:folder("corpus/*.erl"))),
    checks:expect("ten drivers", 10, length(Drivers)),
    Races = lists:append([one(Driver, fetched(hd(words(Driver, "package") ++ ["otp"]))) || Driver <- Drivers]),
    checks:expect("eight races at least are found", length([found || true <- Races]) >= 8 orelse lists:member(left, Races)),
    {ok, Text} = file:read_file(checks:folder("corpus/modules.txt")),
    [_ | Paragraphs] = string:split(string:trim(Text), "\n\n", all),
    Seen = [scenario(binary_to_list(Paragraph)) || Paragraph <- Paragraphs],
    Modules = lists:usort([Module || {_, Names} <- Seen, Module <- Names]),
    Held = [Module || {holds, [Module | _]} <- Seen],
    Left = length([left || {left, _} <- Seen]),
    io:format("  ~w modules in ~w scenarios; ~w run unchanged, ~w are left out~n",
              [length(Modules), length(Seen), length(Held), Left]),
    checks:expect("at least 40 scenarios", length(Seen) >= 40),
    checks:expect("at least 30 of them run", Left > 0 orelse length(Held) >= 30),
    ok.

%% A paragraph: a package and modules, and the text of a driver.
-spec scenario(string()) -> {holds | differs | refused | left, [string()]}.
scenario(Paragraph) ->
    [Head, Text] = string:split(Paragraph, "\n"),
    [Package | [First | _] = Names] = string:lexemes(Head, " "),
    Name = "on_" ++ filename:basename(First, ".erl"),
    File = checks:room(Name ++ ".erl"),
    Stopped = "stopped({ok, S}) -> process_flag(trap_exit, true), N = supervisor:count_children(S), exit(S, shutdown), "
        "receive {'EXIT', S, Why} -> {lists:sort(N), Why} end.\n",
    Head1 = io_lib:format("-module(~s).\n-compile([export_all, nowarn_export_all]).\n", [Name]),
    ok = file:write_file(File, [Head1, Text, "\n", [Stopped || string:find(Text, "stopped(") =/= nomatch]]),
    {held(Name, File, Names, fetched(Package)), Names}.

-spec held(string(), file:filename(), [string()], {ok, file:filename()} | otp | none) -> holds | differs | refused | left.
held(Name, _, _, none) ->
    io:format("  ~ts: its package can't be fetched, so it is left out~n", [Name]),
    left;
held(Name, File, Names, Folder) ->
    Modules = [found(Folder, Module) || Module <- Names],
    [load(Module) || Module <- Modules, Folder =/= otp],
    {ok, Text} = file:read_file(File),
    case {checks:translate([File | Modules], #{root => main}), sentence(Text)} of
        {{ok, Out, _}, none} ->
            Wanted = wanted(checks:normal(checks:value_on_erlang(File, main))),
            Same = checks:expect(Name, [Wanted], checks:hunt(Out, "main", "returns", ?SEEDS)),
            Status = case {Wanted, words(File, "killed")} of {{holds, _, _}, []} -> 0; _ -> 1 end,
            case by_default(Name, [File | Modules], Status) andalso Same of true -> holds; false -> differs end;
        {{ok, Out, _}, Sentence} ->
            checks:expect(Name, [{fails, 2000, Sentence}], checks:hunt(Out, "main", "returns", ?SEEDS)),
            refused;
        {{refused, [{_, _, Why} | _]}, Sentence} when Sentence =/= none ->
            checks:expect(Name, Sentence, lists:sublist(lists:flatten(Why), length(Sentence))),
            refused;
        {Else, _} ->
            checks:expect(Name, "a value, or a refusal", Else),
            differs
    end.

%% A hunt by default words. What a scenario kills on purpose is reported as killed.
-spec by_default(string(), [file:filename()], 0 | 1) -> boolean().
by_default(Name, Files, Wanted) ->
    {Answer, Status} = checks:command(["hunt" | Files] ++ ["--root", "main", "--seeds", ?SEEDS]),
    checks:expect([Name, " by default words: ", lists:nthtail(max(0, length(Answer) - 300), Answer)], Wanted, Status).

%% What each seed has to give, by the value or the end on Erlang.
-spec wanted(term()) -> {holds | fails, 2000, string()}.
wanted({ended, Reason}) -> {fails, 2000, lists:flatten(io_lib:format("ended ~w", [Reason]))};
wanted(Value) -> {holds, 2000, lists:flatten(io_lib:format("finished ~w", [Value]))}.

%% What a scenario is said to be refused for.
-spec sentence(binary()) -> string() | none.
sentence(Text) ->
    case re:run(Text, "^%% refused: (.*)$", [multiline, {capture, [1], list}]) of
        {match, [Sentence]} -> Sentence;
        nomatch -> none
    end.

%% The words after a mark of a driver.
-spec words(file:filename(), string()) -> [string()].
words(Driver, Mark) ->
    {ok, Text} = file:read_file(Driver),
    case re:run(Text, ["^%% ", Mark, ": (.*)$"], [multiline, {capture, [1], list}]) of
        {match, [Named]} -> string:lexemes(Named, " ");
        nomatch -> []
    end.

%% The folder of a package, which is fetched once.
-spec fetched(string()) -> {ok, file:filename()} | otp | none.
fetched("otp") -> otp;
fetched(Package) ->
    Folder = checks:room("package_" ++ Package),
    case filelib:is_dir(Folder) of
        true -> {ok, Folder};
        false ->
            Command = "mkdir -p ~ts.deb && cd ~ts.deb && timeout 120 apt-get download ~ts > /dev/null 2>&1 && "
                "dpkg -x ./*.deb ~ts && echo fetched",
            case get({?MODULE, Package}) =/= none andalso
                os:cmd(lists:flatten(io_lib:format(Command, [Folder, Folder, Package, Folder]))) of
                "fetched\n" -> {ok, Folder};
                _ ->
                    put({?MODULE, Package}, none),
                    none
            end
    end.

%% Whether the race of a driver is found.
-spec one(file:filename(), {ok, file:filename()} | otp | none) -> [boolean() | left].
one(Driver, none) ->
    io:format("  ~ts: its package can't be fetched, so it is left out~n", [filename:basename(Driver)]),
    [left];
one(Driver, Folder) ->
    Name = filename:basename(Driver),
    Modules = [found(Folder, Module) || Module <- words(Driver, "modules")],
    Beside = [checks:folder("corpus/beside/" ++ File) || File <- words(Driver, "beside")],
    [load(File) || File <- Modules ++ Beside],
    Value = lists:flatten(io_lib:format("finished ~w", [checks:normal(checks:value_on_erlang(Driver, main))])),
    {ok, Out, _} = checks:translate([Driver | Modules ++ Beside], #{root => main}),
    io:format("  ~ts: ~w bytes~n", [Name, filelib:file_size(Out)]),
    checks:expect([Name, " has less than 40,000 bytes"], filelib:file_size(Out) < 40000),
    checks:expect([Name, " holds"], [{holds, 2000, Value}], checks:hunt(Out, "main", "returns", ?SEEDS)),
    _ = by_default(Name, [Driver | Modules ++ Beside], 0),
    {ok, Roots} = plain_translation:roots([Driver], plain_translation:defaults()),
    [race(Name, [Driver | Modules ++ Beside]) || lists:member(race, Roots)].

-spec race(string(), [file:filename()]) -> boolean().
race(Name, Files) ->
    {Answer, Status} = checks:command(["hunt" | Files] ++ ["--root", "race"]),
    checks:expect([Name, ": the race is found in 1,000 seeds: ", lists:nthtail(max(0, length(Answer) - 300), Answer)],
            1, Status).

-spec found({ok, file:filename()} | otp, string()) -> file:filename().
found(otp, Module) -> hd(filelib:wildcard(filename:join(code:lib_dir(), "{stdlib,kernel}-*/src/" ++ Module)));
found({ok, Folder}, Module) ->
    Name = case filename:extension(Module) of "" -> Module ++ ".beam"; _ -> Module end,
    hd(filelib:wildcard(filename:join(Folder, "usr/lib/**/" ++ Name))).

-spec load(file:filename()) -> module().
load(File) ->
    case filename:extension(File) of
        ".beam" ->
            Module = list_to_atom(filename:basename(File, ".beam")),
            {ok, Binary} = file:read_file(File),
            {module, Module} = code:load_binary(Module, File, Binary),
            Module;
        _ -> checks:load(File, [])
    end.
