%% @doc Random modules of the constructs that are translated: functions with clauses and guards, and a main that calls them within try.
-module(random_modules).
-export([source/2]).

-type kind() :: int | bool | atom | ints | tuple | map | bytes | any.
-type scope() :: [{string(), kind()}].

%% @doc The source of a module by a number.
-spec source(string(), integer()) -> iolist().
source(Name, Seed) ->
    _ = rand:seed(exsss, {Seed, 7, 11}),
    put(variables, 0),
    Functions = [function(Number) || Number <- lists:seq(1, 4)],
    Calls = [io_lib:format("c(fun() -> f~w(~ts, ~ts) end)", [1 + rand:uniform(4) - 1, value(int), value(ints)]) || _ <- lists:seq(1, 8)],
    ["-module(", Name, ").\n-export([main/0]).\n-record(r, {a = 1, b = [], c}).\n",
     "main() ->\n    [", lists:join(",\n     ", Calls), "].\n",
     "c(F) -> try F() of V -> {ok, V} catch C:R -> {C, R} end.\n", Functions].

-spec function(pos_integer()) -> iolist().
function(Number) ->
    Clause = fun(Pattern, Guard) ->
        put(variables, 0),
        {Text, Scope} = Pattern,
        io_lib:format("f~w(~ts)~ts ->\n    ~ts", [Number, Text, Guard, body(Number, Scope)])
    end,
    First = lists:nth(rand:uniform(4), [{{"X, [H | T]", [{"X", int}, {"H", int}, {"T", ints}]}, " when H > X"},
                                        {{"X, [A, B | _] = L", [{"X", int}, {"A", int}, {"B", int}, {"L", ints}]}, " when A =:= B; X > 5, B > 2"},
                                        {{"X, L", [{"X", int}, {"L", ints}]}, " when length(L) > 3, X rem 2 =:= 0"},
                                        {{"0, L", [{"L", ints}]}, ""}]),
    {P1, G1} = First,
    Last = {"X, L", [{"X", int}, {"L", ints}]},
    [Clause(P1, G1), ";\n", Clause(Last, case rand:uniform(4) of 1 -> " when X < 8"; _ -> "" end), ".\n"].

%% A body: matches, then a value.
-spec body(pos_integer(), scope()) -> iolist().
body(Number, Scope) ->
    {Matches, Inside} = lists:mapfoldl(fun(_, Known) ->
        Kind = kind(),
        Name = fresh(),
        {[Name, " = ", expression(Kind, 3, Known, Number), ",\n    "], [{Name, Kind} | Known]}
    end, Scope, lists:seq(1, rand:uniform(3))),
    [Matches, expression(any, 3, Inside, Number)].

-spec fresh() -> string().
fresh() ->
    Number = get(variables) + 1,
    put(variables, Number),
    "V" ++ integer_to_list(Number).

-spec kind() -> kind().
kind() -> lists:nth(rand:uniform(7), [int, bool, atom, ints, tuple, map, bytes]).

-spec value(kind()) -> iolist().
value(int) -> integer_to_list(rand:uniform(12) - 2);
value(bool) -> lists:nth(rand:uniform(2), ["true", "false"]);
value(atom) -> lists:nth(rand:uniform(4), ["a", "b", "none", "'an atom'"]);
value(ints) -> ["[", lists:join(", ", [value(int) || _ <- lists:seq(1, rand:uniform(5) - 1)]), "]"];
value(tuple) -> ["{", value(int), ", ", value(atom), "}"];
value(map) -> ["#{a => ", value(int), ", 1 => ", value(atom), "}"];
value(bytes) -> lists:nth(rand:uniform(3), ["<<\"ab\">>", "<<>>", "<<1, 2, 3>>"]);
value(any) -> value(kind()).

-spec expression(kind(), non_neg_integer(), scope(), pos_integer()) -> iolist().
expression(Kind, 0, Scope, _) -> leaf(Kind, Scope);
expression(any, Depth, Scope, F) -> expression(kind(), Depth, Scope, F);
expression(Kind, Depth, Scope, F) ->
    E = fun(Wanted) -> expression(Wanted, Depth - 1, Scope, F) end,
    case rand:uniform(9) of
        1 -> leaf(Kind, Scope);
        2 -> choice(Kind, Depth, Scope, F);
        3 -> tried(Kind, Depth, Scope, F);
        4 -> applied(Kind, Depth, Scope, F);
        5 -> received(Kind, Depth, Scope, F);
        _ -> own(Kind, E, Depth, Scope, F)
    end.

-spec leaf(kind(), scope()) -> iolist().
leaf(any, Scope) -> leaf(kind(), Scope);
leaf(Kind, Scope) ->
    case [Name || {Name, K} <- Scope, K =:= Kind] of
        [] -> value(Kind);
        Names -> case rand:uniform(4) of 1 -> value(Kind); _ -> lists:nth(rand:uniform(length(Names)), Names) end
    end.

-spec choice(kind(), pos_integer(), scope(), pos_integer()) -> iolist().
choice(Kind, Depth, Scope, F) ->
    E = fun(Wanted) -> expression(Wanted, Depth - 1, Scope, F) end,
    N = fresh(),
    In = fun(Bound) -> expression(Kind, Depth - 1, Bound ++ Scope, F) end,
    case rand:uniform(5) of
        1 -> ["(if ", leaf(int, Scope), " > ", leaf(int, Scope), " -> ", E(Kind), "; true -> ", E(Kind), " end)"];
        2 -> ["(case ", E(ints), " of [", N, " | _] when ", N, " > 1 -> ", In([{N, int}]), "; _ -> ", E(Kind), " end)"];
        3 -> ["(case ", E(map), " of #{a := ", N, "} -> ", E(Kind), "; _ -> ", E(Kind), " end)"];
        4 -> ["(case ", E(tuple), " of {", N, ", a} when is_integer(", N, ") -> ", In([{N, int}]), "; {_, ", N, "b} = ", N, "t -> ", In([{N ++ "t", tuple}]), " end)"];
        5 -> ["(case ", E(bytes), " of <<", N, ", _/binary>> when ", N, " > 1 -> ", In([{N, int}]), "; ", N, "r -> ", In([{N ++ "r", bytes}]), " end)"]
    end.

-spec tried(kind(), pos_integer(), scope(), pos_integer()) -> iolist().
tried(Kind, Depth, Scope, F) ->
    E = fun(Wanted) -> expression(Wanted, Depth - 1, Scope, F) end,
    case rand:uniform(4) of
        1 -> ["(try ", E(Kind), " catch error:_ -> ", E(Kind), "; throw:{t, _} -> ", E(Kind), " end)"];
        2 -> ["(try throw({t, ", E(any), "}) catch throw:{t, _} -> ", E(Kind), " end)"];
        3 -> ["(try hd(", E(ints), ") of 1 -> ", E(Kind), "; _ -> ", E(Kind), " catch _:badarg -> ", E(Kind), " end)"];
        4 -> ["begin (catch error(", E(atom), ")), ", E(Kind), " end"]
    end.

-spec applied(kind(), pos_integer(), scope(), pos_integer()) -> iolist().
applied(Kind, Depth, Scope, F) ->
    N = fresh(),
    Inner = expression(Kind, Depth - 1, [{N, int} | Scope], F),
    ["(fun(", N, ") when ", N, " < 100 -> ", Inner, "; (_) -> ", leaf(Kind, Scope), " end)(", leaf(int, Scope), ")"].

-spec received(kind(), pos_integer(), scope(), pos_integer()) -> iolist().
received(Kind, Depth, Scope, F) ->
    N = fresh(),
    Inner = expression(Kind, Depth - 1, [{N, int} | Scope], F),
    ["begin self() ! {m, ", leaf(int, Scope), "}, receive {m, ", N, "} -> ", Inner, " after 0 -> ", leaf(Kind, Scope), " end end"].

%% Constructs that give this kind of value.
-spec own(kind(), fun((kind()) -> iolist()), pos_integer(), scope(), pos_integer()) -> iolist().
own(int, E, _, Scope, F) ->
    pick([fun() -> ["(", E(int), " ", pick(["+", "-"]), " ", E(int), ")"] end,
          fun() -> ["((", E(int), ") rem 50 * ", value(int), ")"] end,
          fun() -> ["(", E(int), " ", pick(["div", "rem"]), " ", leaf(int, Scope), ")"] end,
          fun() -> ["length(", E(ints), ")"] end,
          fun() -> ["lists:sum(", E(ints), ")"] end,
          fun() -> ["element(1, ", E(tuple), ")"] end,
          fun() -> ["maps:get(a, ", E(map), ", ", leaf(int, Scope), ")"] end,
          fun() -> ["byte_size(", E(bytes), ")"] end,
          fun() -> ["(#r{a = ", E(int), "})#r.a"] end,
          fun() -> ["abs(", E(int), ")"] end,
          fun() -> ["max(", E(int), ", ", E(int), ")"] end,
          fun() -> ["lists:foldl(fun(A", integer_to_list(F), "x, B", integer_to_list(F), "x) -> A", integer_to_list(F), "x + B", integer_to_list(F), "x end, 0, ", E(ints), ")"] end]);
own(bool, E, _, Scope, _) ->
    pick([fun() -> ["(", E(int), " ", pick(["<", ">=", "=:=", "=/="]), " ", E(int), ")"] end,
          fun() -> ["(", E(bool), " ", pick(["andalso", "orelse", "and", "or", "xor"]), " ", leaf(bool, Scope), ")"] end,
          fun() -> ["not (", E(bool), ")"] end,
          fun() -> [pick(["is_list", "is_atom", "is_map", "is_tuple", "is_binary", "is_integer"]), "(", E(any), ")"] end,
          fun() -> ["lists:member(", E(int), ", ", E(ints), ")"] end,
          fun() -> ["maps:is_key(", E(atom), ", ", E(map), ")"] end]);
own(atom, E, _, Scope, _) ->
    pick([fun() -> ["(", "case ", E(bool), " of true -> ", leaf(atom, Scope), "; false -> ", leaf(atom, Scope), " end)"] end,
          fun() -> ["element(2, ", E(tuple), ")"] end]);
own(ints, E, Depth, Scope, F) ->
    N = fresh(),
    Inside = expression(int, Depth - 1, [{N, int} | Scope], F),
    pick([fun() -> ["[", E(int), " | ", E(ints), "]"] end,
          fun() -> ["(", E(ints), " ", pick(["++", "--"]), " ", E(ints), ")"] end,
          fun() -> ["[", Inside, " || ", N, " <- ", E(ints), "]"] end,
          fun() -> ["[", Inside, " || ", N, " <- ", E(ints), ", ", N, " > ", leaf(int, Scope), "]"] end,
          fun() -> [pick(["lists:reverse", "lists:sort", "lists:usort", "tl"]), "(", E(ints), ")"] end,
          fun() -> ["lists:map(fun(", N, ") -> ", Inside, " end, ", E(ints), ")"] end,
          fun() -> ["lists:seq(1, ", value(int), ")"] end,
          fun() -> ["binary_to_list(", E(bytes), ")"] end]);
own(tuple, E, _, _, _) ->
    pick([fun() -> ["{", E(int), ", ", E(atom), "}"] end,
          fun() -> ["setelement(1, ", E(tuple), ", ", E(int), ")"] end,
          fun() -> ["hd([", E(tuple), " || true <- [", E(bool), ", true]])"] end]);
own(map, E, _, _, _) ->
    pick([fun() -> ["(", E(map), ")#{a => ", E(int), "}"] end,
          fun() -> ["(", E(map), ")#{a := ", E(int), "}"] end,
          fun() -> ["#{", E(atom), " => ", E(int), ", ", E(int), " => ", E(tuple), "}"] end,
          fun() -> ["maps:", pick(["put(a, ", "remove("]), case get(chosen) of "put(a, " -> [E(int), ", "]; _ -> [E(atom), ", "] end, E(map), ")"] end,
          fun() -> ["maps:merge(", E(map), ", ", E(map), ")"] end]);
own(bytes, E, _, _, _) ->
    pick([fun() -> ["<<(", E(bytes), ")/binary, (", E(int), ")>>"] end,
          fun() -> ["integer_to_binary(", E(int), ")"] end,
          fun() -> ["atom_to_binary(", E(atom), ")"] end]).

-spec pick([Choice]) -> iolist() when Choice :: string() | fun(() -> iolist()).
pick(Choices) ->
    case lists:nth(rand:uniform(length(Choices)), Choices) of
        Make when is_function(Make) -> Make();
        Text ->
            put(chosen, Text),
            Text
    end.
