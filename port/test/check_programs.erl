%% @doc Programs with a race and fixed: the race is found, the fixed form holds, and each outcome of Erlang is among those of the farm.
%% On Erlang a call of check_yield:yield/0 is before each send and each remote call: it sleeps a little, yields or does nothing, by
%% chance, so that more than the usual order is seen.
-module(check_programs).
-export([check/0]).

-define(RUNS, 100).
-define(SEEDS, "0..10000").

-spec check() -> ok.
check() ->
    _ = rand:seed(exsss, {4, 5, 6}),
    Files = lists:sort(filelib:wildcard(checks:folder("../examples/*.erl"))),
    checks:expect("twelve programs", 12, length(Files)),
    [one(File, Form) || File <- Files, Form <- [race, fixed]],
    ok.

-spec one(file:filename(), race | fixed) -> boolean().
one(File, Form) ->
    Name = lists:concat([filename:basename(File, ".erl"), " ", Form]),
    Defines = ['FIXED' || Form =:= fixed],
    {ok, Out, _} = checks:translate([File], #{defines => Defines, library_defines => [{'PATIENCE', 0} || is_early(File)]}),
    Outcomes = checks:hunt(Out, "main", property(File), ?SEEDS),
    Failing = lists:sum([Number || {fails, Number, _} <- Outcomes]),
    case Form of
        race -> checks:expect([Name, " is found"], Failing > 0);
        fixed -> checks:expect([Name, " holds"], 0, Failing)
    end,
    Seen = on_erlang(File, Defines),
    Missing = [O || O <- Seen, not lists:keymember(O, 3, Outcomes)],
    checks:expect([Name, ": outcomes of Erlang that the farm doesn't have"], [], further(Missing, Name, File, Defines)).

%% An outcome that virtual time doesn't have is one where a time passes while others go.
-spec further([string()], string(), file:filename(), [atom()]) -> [string()].
further([], _, _, _) -> [];
further(Missing, Name, File, Defines) ->
    io:format("  ~s: times that pass at any moment are hunted for ~s~n", [Name, lists:join(" ", Missing)]),
    {ok, Out, _} = checks:translate([File], #{defines => Defines, library_defines => [{'PATIENCE', 0}]}),
    Outcomes = checks:hunt(Out, "main", property(File), "0..100000"),
    [O || O <- Missing, not lists:keymember(O, 3, Outcomes)].

%% Whether a program's race is that of a time which passes while others go.
-spec is_early(file:filename()) -> boolean().
is_early(File) ->
    {ok, Text} = file:read_file(File),
    re:run(Text, "^%% patience: early$", [multiline]) =/= nomatch.

-spec property(file:filename()) -> string().
property(File) ->
    {ok, Text} = file:read_file(File),
    case re:run(Text, "%% property: (\\w+)", [{capture, [1], list}]) of
        {match, [Property]} -> Property;
        nomatch -> "nocrash"
    end.

-spec on_erlang(file:filename(), [atom()]) -> [string()].
on_erlang(File, Defines) ->
    {ok, Forms} = epp:parse_file(File, [{macros, Defines}]),
    {ok, Module, Binary} = compile:forms([yielding(Form) || Form <- Forms], [binary]),
    code:purge(Module),
    {module, Module} = code:load_binary(Module, File, Binary),
    lists:usort([outcome(Module) || _ <- lists:seq(1, ?RUNS)]).

-spec yielding(term()) -> term().
yielding({attribute, _, _, _} = Attribute) -> Attribute;
yielding({clause, L, Patterns, Guard, Body}) -> {clause, L, Patterns, Guard, yielding(Body)};
yielding({match, L, Pattern, Value}) -> {match, L, Pattern, yielding(Value)};
yielding({generate, L, Pattern, Value}) -> {generate, L, Pattern, yielding(Value)};
yielding({call, L, {remote, _, {atom, _, _}, {atom, _, Function}} = Remote, Arguments}) when Function =/= error ->
    {block, L, [yield(L), {call, L, Remote, yielding(Arguments)}]};
yielding({call, L, {atom, _, Function} = Name, Arguments}) when Function =:= register; Function =:= whereis; Function =:= spawn_link; Function =:= spawn;
                                                                Function =:= spawn_monitor; Function =:= monitor ->
    {block, L, [yield(L), {call, L, Name, yielding(Arguments)}]};
yielding({op, L, '!', To, Message}) -> {block, L, [yield(L), {op, L, '!', yielding(To), yielding(Message)}]};
yielding(Form) when is_tuple(Form) -> list_to_tuple(yielding(tuple_to_list(Form)));
yielding([Head | Tail]) -> [yielding(Head) | yielding(Tail)];
yielding(Other) -> Other.

-spec yield(term()) -> term().
yield(L) -> {call, L, {remote, L, {atom, L, check_yield}, {atom, L, yield}}, []}.

%% One run in a process of its own; what it started and left is ended after it.
-spec outcome(module()) -> string().
outcome(Module) ->
    Before = processes(),
    {Pid, Monitor} = spawn_monitor(fun() -> exit({value, Module:main()}) end),
    Outcome = receive
        {'DOWN', Monitor, process, Pid, {value, Value}} -> io_lib:format("finished ~w", [checks:normal(Value)]);
        {'DOWN', Monitor, process, Pid, Why} -> io_lib:format("ended ~w", [checks:normal(checks:bare(Why))])
    after 60000 -> "deadlock"
    end,
    [exit(Left, kill) || Left <- processes() -- Before],
    settle(Before),
    lists:flatten(Outcome).

-spec settle([pid()]) -> ok.
settle(Before) ->
    case processes() -- Before of
        [] -> ok;
        _ ->
            erlang:yield(),
            settle(Before)
    end.
