%% @doc Calls of OTP's modules, sampled from calls.txt: each within a try, so that errors are compared too, and where it raises nothing
%% also as it is. Those that are known to differ are in calls_that_differ.txt with the reason; each of them has to differ still.
-module(check_calls).
-export([check/0]).

-define(SAMPLES, 9).
-define(TOGETHER, 40).

-spec check() -> ok.
check() ->
    {ok, Terms} = file:consult(checks:folder("calls.txt")),
    {ok, Different} = file:consult(checks:folder("calls_that_differ.txt")),
    Kinds = maps:from_list([{Kind, Samples} || {kind, Kind, Samples} <- Terms]),
    _ = rand:seed(exsss, {1, 2, 3}),
    Results = [module(Module, Functions, Kinds, Different) || {module, Module, Functions} <- Terms],
    Calls = lists:sum([Number || {Number, _} <- Results]),
    Differing = lists:append([Functions || {_, Functions} <- Results]),
    checks:expect(io_lib:format("~w calls are 2,000 at least", [Calls]), Calls >= 2000),
    [checks:expect(io_lib:format("~w differs, as calls_that_differ.txt says", [Function]), lists:member(Function, Differing)) || {differs, Function, _} <- Different],
    [refused(Function, Call) || {refused, Function, Call, _} <- Different],
    io:format("  ~w calls; ~w differ as listed~n", [Calls, length(Differing)]).

-spec module(module(), [{atom(), [atom()]}], map(), [tuple()]) -> {non_neg_integer(), [{module(), atom(), arity()}]}.
module(Module, Functions, Kinds, Different) ->
    Refused = [Function || {refused, Function, _, _} <- Different],
    Calls = lists:append([calls(Module, Function, Arguments, Kinds) || {Function, Arguments} <- Functions, not lists:member({Module, Function, length(Arguments)}, Refused)]),
    Listed = [Function || {differs, Function, _} <- Different],
    {length(Calls), lists:usort(lists:append([together(Module, Part, Listed) || Part <- parts(Calls)]))}.

-spec calls(module(), atom(), [atom()], map()) -> [{tuple(), string()}].
calls(Module, Function, Arguments, Kinds) ->
    All = combinations([maps:get(Kind, Kinds) || Kind <- Arguments]),
    Picked = lists:sublist([X || {_, X} <- lists:sort([{rand:uniform(), X} || X <- All])], ?SAMPLES),
    [{{Module, Function, length(Arguments)}, lists:flatten(io_lib:format("~p:~p(~s)", [Module, Function, lists:join(", ", Values)]))} || Values <- Picked].

-spec combinations([[string()]]) -> [[string()]].
combinations([]) -> [[]];
combinations([Samples | Rest]) -> [[X | Others] || X <- Samples, Others <- combinations(Rest)].

-spec parts([term()]) -> [[term()]].
parts([]) -> [];
parts(Calls) when length(Calls) =< ?TOGETHER -> [Calls];
parts(Calls) ->
    {Part, Rest} = lists:split(?TOGETHER, Calls),
    [Part | parts(Rest)].

%% Several calls in one module; the functions of those that differ as listed.
-spec together(module(), [{tuple(), string()}], [tuple()]) -> [tuple()].
together(Module, Calls, Listed) ->
    Name = lists:concat(["calls_", Module, "_", erlang:unique_integer([positive])]),
    File = checks:room(Name ++ ".erl"),
    Tried = ["main() -> {[", lists:join(",\n", ["c(fun() -> " ++ Call ++ " end)" || {_, Call} <- Calls]), "],\n["],
    Rest = ["]}.\nc(F) -> try F() of V -> {ok, V} catch C:R -> {C, R} end.\n"],
    Head = ["-module(", Name, ").\n-export([main/0]).\n"],
    ok = file:write_file(File, [Head, Tried, Rest]),
    {Values, []} = checks:value_on_erlang(File, main),
    Good = [Pair || {Pair, {ok, _}} <- lists:zip(Calls, Values)],
    ok = file:write_file(File, [Head, Tried, lists:join(",\n", [Call || {_, Call} <- Good]), Rest]),
    {_, Plain} = checks:value_on_erlang(File, main),
    case seen(File) of
        {ok, {SeenTried, SeenPlain}} ->
            compared(Calls, Values, SeenTried, Listed, "") ++ compared(Good, Plain, SeenPlain, Listed, " as it is");
        {error, Why} when length(Calls) > 1 ->
            {A, B} = lists:split(length(Calls) div 2, Calls),
            _ = Why,
            together(Module, A, Listed) ++ together(Module, B, Listed);
        {error, Why} ->
            checks:expect(element(2, hd(Calls)), taken, Why),
            []
    end.

-spec seen(file:filename()) -> {ok, term()} | {error, term()}.
seen(File) ->
    case checks:translate([File]) of
        {ok, Out, _} ->
            case checks:run(Out, "main", 1) of
                {"finished " ++ Text, _} -> {ok, term(Text)};
                {Outcome, _} -> {error, Outcome}
            end;
        Refused -> {error, Refused}
    end.

-spec term(string()) -> term().
term(Text) ->
    {ok, Tokens, _} = erl_scan:string(Text ++ "."),
    {ok, Term} = erl_parse:parse_term(Tokens),
    Term.

-spec compared([{tuple(), string()}], [term()], [term()], [tuple()], string()) -> [tuple()].
compared(Calls, Values, Seen, Listed, How) ->
    lists:append([compare(Function, Call ++ How, checks:normal(Value), Here, lists:member(Function, Listed))
                  || {{Function, Call}, {Value, Here}} <- lists:zip(Calls, lists:zip(Values, Seen))]).

-spec compare(tuple(), string(), term(), term(), boolean()) -> [tuple()].
compare(_, _, Same, Same, _) ->
    checks:pass(1),
    [];
compare(Function, _, _, _, true) -> [Function];
compare(_, Call, Value, Seen, false) ->
    checks:expect(Call, Value, Seen),
    [].

%% A function that is refused, with its file and line.
-spec refused(tuple(), string()) -> boolean().
refused({Module, Function, _}, Call) ->
    Name = lists:concat(["refused_", Module, "_", Function]),
    File = checks:room(Name ++ ".erl"),
    ok = file:write_file(File, ["-module(", Name, ").\n-export([main/0]).\nmain() -> ", Call, ".\n"]),
    checks:expect(Call ++ " is refused, or ends with {refused,..}", case seen(File) of
        {error, {refused, _}} -> true;
        {error, "ended {refused," ++ _} -> true;
        _ -> false
    end).
