%% @doc Calls of ets from tables.txt on tables of each type: what each call returns or raises, and what the table has
%% then, is as on Erlang. The order of tables that have none is left out.
-module(check_tables).
-export([check/0]).

-define(SAMPLES, 8).
-define(TOGETHER, 24).

-spec check() -> ok.
check() ->
    {ok, Terms} = file:consult(checks:folder("tables.txt")),
    Kinds = maps:from_list([{Kind, Samples} || {kind, Kind, Samples} <- Terms]),
    _ = rand:seed(exsss, {1, 2, 3}),
    Calls = lists:append([calls(Function, Arguments, Numbers, Kinds)
                          || {Numbers, Functions} <- groups(Terms), {Function, Arguments} <- Functions]),
    checks:expect("800 calls at least", length(Calls) >= 800),
    [together(Part) || Part <- parts(Calls)],
    io:format("  ~w calls~n", [length(Calls)]).

%% The calls, and whether what the table has are numbers.
-spec groups([term()]) -> [{yes | no, [{atom(), [atom()]}]}].
groups([{numbers, Numbers}, {calls, Calls} | Rest]) -> [{Numbers, Calls} | groups(Rest)];
groups([_ | Rest]) -> groups(Rest);
groups([]) -> [].

-spec calls(atom(), [atom()], yes | no, map()) -> [string()].
calls(Function, Kinds, Numbers, Samples) ->
    Types = types(Function),
    Taken = combinations([maps:get(Kind, Samples) || Kind <- Kinds]),
    Shuffled = lists:sort([{rand:uniform(), {Type, Arguments}} || Type <- Types, Arguments <- Taken]),
    Text = fun(Type, Arguments) ->
        io_lib:format("one(~p, ~p, fun(T) -> ~s end)", [Type, Numbers, call(Function, Arguments)])
    end,
    Most = ?SAMPLES * length(Types),
    [lists:flatten(Text(Type, Arguments)) || {_, {Type, Arguments}} <- lists:sublist(Shuffled, Most)].

%% What asks for an order goes over tables that have one.
-spec types(atom()) -> [atom()].
types(Function) ->
    case lists:member(Function, [first, last, next, prev, slot, foldl_, foldr_]) of
        true -> [ordered_set];
        false -> [set, ordered_set, bag, duplicate_bag]
    end.

-spec call(atom(), [string()]) -> iodata().
call(foldl_, [F, A]) -> ["ets:foldl(", F, ", ", A, ", T)"];
call(foldr_, [F, A]) -> ["ets:foldr(", F, ", ", A, ", T)"];
call(Function, Arguments) -> io_lib:format("ets:~w(~s)", [Function, lists:join(", ", ["T" | Arguments])]).

-spec combinations([[string()]]) -> [[string()]].
combinations([]) -> [[]];
combinations([Samples | Rest]) -> [[X | Others] || X <- Samples, Others <- combinations(Rest)].

-spec parts([term()]) -> [[term()]].
parts(Calls) when length(Calls) =< ?TOGETHER -> [Calls];
parts(Calls) ->
    {Part, Rest} = lists:split(?TOGETHER, Calls),
    [Part | parts(Rest)].

-spec together([string()]) -> ok.
together(Calls) ->
    Name = lists:concat(["tables_", erlang:unique_integer([positive])]),
    File = checks:room(Name ++ ".erl"),
    Head = ["-module(", Name, ").\n-export([main/0]).\n"],
    ok = file:write_file(File, [Head, "main() -> [", lists:join(",\n", Calls), "].\n", helpers()]),
    Wanted = checks:value_on_erlang(File, main, [nowarn_unused_function]),
    case seen(File) of
        {ok, Seen} when length(Seen) =:= length(Wanted) ->
            [checks:expect(Call, checks:normal(Value), Here) || {Call, Value, Here} <- lists:zip3(Calls, Wanted, Seen)],
            ok;
        {_, Why} when length(Calls) =:= 1 -> one(hd(Calls), Why);
        _ ->
            {A, B} = lists:split(length(Calls) div 2, Calls),
            together(A),
            together(B)
    end.

%% A call that can't be made with others: one that is refused has no value.
-spec one(string(), term()) -> ok.
one(Call, Why) ->
    checks:expect(Call, "a value", Why),
    ok.

-spec helpers() -> iodata().
helpers() ->
    "one(Type, Numbers, F) ->\n"
    "    T = ets:new(t, [Type, public]),\n"
    "    true = ets:insert(T, case Numbers of\n"
    "        no -> [{1, a}, {2, b}, {3, c}, {1, b}];\n"
    "        yes -> [{1, 4}, {2, -3}, {a, 7}]\n"
    "    end),\n"
    "    V = try tidy(F(T), Type, T) of Value -> {ok, Value} catch C:R -> {C, R} end,\n"
    "    {V, try lists:sort(ets:tab2list(T)) catch error:badarg -> gone end}.\n"
    "tidy(T, _, T) -> table;\n"
    "tidy({L, '$end_of_table'}, Type, _) when is_list(L) -> {ordered(L, Type), ended};\n"
    "tidy({L, _}, _, _) when is_list(L) -> {length(L), more};\n"
    "tidy(V, Type, _) -> ordered(V, Type).\n"
    "ordered(L, ordered_set) -> L;\n"
    "ordered(L, _) when is_list(L) -> lists:sort(L);\n"
    "ordered(V, _) -> V.\n".

-spec seen(file:filename()) -> {ok, list()} | {error, term()}.
seen(File) ->
    case checks:translate([File]) of
        {ok, Out, _} ->
            case checks:run(Out, "main", 1) of
                {"finished " ++ Text, _} ->
                    {ok, Tokens, _} = erl_scan:string(Text ++ "."),
                    {ok, Term} = erl_parse:parse_term(Tokens),
                    {ok, Term};
                {Outcome, _} -> {error, Outcome}
            end;
        Refused -> {error, Refused}
    end.
