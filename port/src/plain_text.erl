%% @doc Bodies of the profile as trees of their own, and their text.
-module(plain_text).
-export([body/1, expression/1, guarded/1, atom/1, is_bare/1, string/1, variables/1]).

-type expression() ::
    {int, integer()} | {atom, atom()} | {var, string()} | nil | {tuple, [expression()]} | {cons, expression(), expression()}
  | {call, atom(), [expression()]} | {op, atom(), expression(), expression()} | {neg, expression()}
  | {'case', expression(), [clause()]} | {recv, [clause()]} | {'if', [{guard(), body()}]} | {match, expression(), expression()}.
-type guard() :: [[expression()]].
-type body() :: [expression()].
-type clause() :: {expression(), guard(), body()}.
-export_type([expression/0, guard/0, body/0, clause/0]).

-spec body(body()) -> iodata().
body(Elements) -> comma([element(E) || E <- Elements]).

-spec comma([iodata()]) -> iodata().
comma(Parts) -> lists:join(",", Parts).

-spec element(expression()) -> iodata().
element({match, Pattern, Value}) -> [expression(Pattern), "=", element(Value)];
element(Expression) -> expression(Expression).

-spec expression(expression()) -> iodata().
expression({int, I}) -> integer_to_list(I);
expression({atom, A}) -> atom(A);
expression({var, Name}) -> Name;
expression(nil) -> "[]";
expression({tuple, Elements}) -> ["{", comma([expression(X) || X <- Elements]), "}"];
expression({cons, _, _} = List) ->
    case characters(List, []) of
        {ok, Text} -> ["\"", [escaped(C, $") || C <- Text], "\""];
        no -> ["[", elements(List), "]"]
    end;
expression({call, Function, Arguments}) -> [atom(Function), "(", comma([expression(X) || X <- Arguments]), ")"];
expression({op, Operator, A, B}) -> [operand(A), operator(Operator), operand(B)];
expression({neg, A}) -> ["-", operand(A)];
expression({'case', Value, Clauses}) -> ["case ", expression(Value), " of ", clauses(Clauses), " end"];
expression({recv, Clauses}) -> ["receive ", clauses(Clauses), " end"];
expression({'if', Branches}) ->
    ["if ", lists:join(";", [[case Guard of [] -> "true"; _ -> alternatives(Guard) end, "->", body(Body)] || {Guard, Body} <- Branches]), " end"].

-spec clauses([clause()]) -> iodata().
clauses(Clauses) -> lists:join(";", [[expression(Pattern), guarded(Guard), "->", body(Body)] || {Pattern, Guard, Body} <- Clauses]).

-spec operand(expression()) -> iodata().
operand({op, _, _, _} = X) -> ["(", expression(X), ")"];
operand({int, I} = X) when I < 0 -> ["(", expression(X), ")"];
operand({neg, _} = X) -> ["(", expression(X), ")"];
operand(X) -> expression(X).

-spec operator(atom()) -> iodata().
operator(Word) when Word =:= 'div'; Word =:= 'rem'; Word =:= 'andalso'; Word =:= 'orelse' -> [" ", atom_to_list(Word), " "];
operator(Sign) -> atom_to_list(Sign).

%% @doc A guard with its `when', or nothing.
-spec guarded(guard()) -> iodata().
guarded([]) -> [];
guarded(Guard) -> [" when ", alternatives(Guard)].

-spec alternatives(guard()) -> iodata().
alternatives(Guard) -> lists:join(";", [comma([expression(Test) || Test <- Tests]) || Tests <- Guard]).

-spec elements(expression()) -> iodata().
elements({cons, Head, nil}) -> expression(Head);
elements({cons, Head, {cons, _, _} = Tail}) ->
    case characters(Tail, []) of
        {ok, Text} when length(Text) > 3 -> [expression(Head), "|", expression(Tail)];
        _ -> [expression(Head), ",", elements(Tail)]
    end;
elements({cons, Head, Tail}) -> [expression(Head), "|", expression(Tail)].

-spec characters(expression(), string()) -> {ok, string()} | no.
characters({cons, {int, C}, Tail}, Before) when C >= 32, C =< 126; C =:= 10; C =:= 9 -> characters(Tail, [C | Before]);
characters(nil, [_, _ | _] = Before) -> {ok, lists:reverse(Before)};
characters(_, _) -> no.

-spec escaped(char(), char()) -> char() | string().
escaped(Quote, Quote) -> [$\\, Quote];
escaped($\\, _) -> "\\\\";
escaped($\n, _) -> "\\n";
escaped($\t, _) -> "\\t";
escaped(C, _) -> C.

%% @doc An atom, in quotes where it needs them.
-spec atom(atom()) -> iodata().
atom(Atom) ->
    Name = atom_to_list(Atom),
    case bare(Name) andalso not lists:member(Name, reserved()) of
        true -> Name;
        false ->
            [plain_refusal:refuse("the atom ~tw has a character outside 32 to 126; rename it", [Atom]) || C <- Name, C > 126 orelse (C < 32 andalso C =/= $\n andalso C =/= $\t)],
            ["'", [escaped(C, $') || C <- Name], "'"]
    end.

%% @doc Whether an atom needs no quotes.
-spec is_bare(atom()) -> boolean().
is_bare(Atom) -> bare(atom_to_list(Atom)) andalso not lists:member(atom_to_list(Atom), reserved()).

-spec bare(string()) -> boolean().
bare([First | Rest]) when First >= $a, First =< $z ->
    lists:all(fun(C) -> (C >= $a andalso C =< $z) orelse (C >= $A andalso C =< $Z) orelse (C >= $0 andalso C =< $9) orelse C =:= $_ orelse C =:= $@ end, Rest);
bare(_) -> false.

-spec reserved() -> [string()].
reserved() ->
    ["after", "and", "andalso", "band", "begin", "bnot", "bor", "bsl", "bsr", "bxor", "case", "catch", "cond", "div", "end", "fun", "if", "let",
     "not", "of", "or", "orelse", "receive", "rem", "try", "when", "xor", "maybe", "else"].

%% @doc The text of a list of characters.
-spec string(string()) -> iodata().
string(Text) -> expression(lists:foldr(fun(C, Tail) -> {cons, {int, C}, Tail} end, nil, Text)).

%% @doc The variables that stand in a body.
-spec variables(term()) -> [expression()].
variables({var, "_"}) -> [];
variables({var, _} = Variable) -> [Variable];
variables(Tree) when is_tuple(Tree) -> variables(tuple_to_list(Tree));
variables([Head | Tail]) -> variables(Head) ++ variables(Tail);
variables(_) -> [].
