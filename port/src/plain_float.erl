%% @doc Floats as {'#float', K} (priv/lib/pf_float.erl): their literals, and what operators are where a module makes
%% floats. There operators on values that may be numbers of both kinds are functions of the library.
-module(plain_float).
-export([key/1, value/1, are_made/0, operator/2, needs/2]).

-type expression() :: plain_text:expression().

%% @doc The number of a float: its bits without the sign, below 0 where the float is.
-spec key(float()) -> integer().
key(Float) ->
    <<Sign:1, Bits:63>> = <<Float/float>>,
    case Sign of
        0 -> Bits;
        1 -> -Bits
    end.

%% @doc The float of a number.
-spec value(integer()) -> float().
value(Key) ->
    Sign = case Key < 0 of true -> 1; false -> 0 end,
    <<Float/float>> = <<Sign:1, (abs(Key)):63>>,
    Float.

%% @doc Whether the module makes floats, and what is translated now may see them. Maps hold what is the same (=:=), in the order of
%% the profile, and services count integers.
-spec are_made() -> boolean().
are_made() -> plain_state:get(floats) andalso not is_native(plain_state:get(module)).

-spec is_native(module()) -> boolean().
is_native(maps) -> true;
is_native(pf_match) -> false; % it evaluates what the source wrote
is_native(Module) -> lists:prefix("pf_", atom_to_list(Module)).

%% @doc An operator of the profile, or a few of them, that is the operator of Erlang on these; or none is.
-spec operator(atom(), [expression()]) -> expression() | no.
operator(Operator, [A, B] = Both) ->
    case are_made() of
        false -> {op, Operator, A, B};
        true -> among_floats(Operator, [literal(X) || X <- Both], A, B)
    end.

%% @doc Whether an operator is a function of the library here.
-spec needs(atom(), [expression()]) -> boolean().
needs('/', [_, _]) -> false;
needs(Operator, [_, _] = Both) -> lists:member(Operator, operators()) andalso operator(Operator, Both) =:= no;
needs('-', [A]) -> are_made() andalso case literal(A) of {number, Number} -> is_float(Number); Kind -> Kind =:= unknown end;
needs(_, _) -> false.

-spec operators() -> [atom()].
operators() -> ['+', '-', '*', '<', '>', '=<', '>=', '==', '/='].

%% What an expression is: a number, something without numbers, or unknown.
-spec literal(expression()) -> {number, number()} | other | unknown.
literal({int, I}) -> {number, I};
literal({tuple, [{atom, '#float'}, {int, Key}]}) -> {number, value(Key)};
literal({atom, _}) -> other;
literal(nil) -> other;
literal(_) -> unknown.

-spec among_floats(atom(), [{number, number()} | other | unknown], expression(), expression()) -> expression() | no.
among_floats(Operator, [{number, I}, {number, J}], A, B) when is_integer(I), is_integer(J) -> {op, Operator, A, B};
among_floats(Operator, Kinds, A, B) when Operator =:= '=='; Operator =:= '/=' ->
    case Kinds of
        [{number, N}, unknown] -> same(Operator, B, N);
        [unknown, {number, N}] -> same(Operator, A, N);
        [_, _] -> case lists:member(other, Kinds) of true -> {op, Operator, A, B}; false -> no end
    end;
among_floats(Operator, [unknown, {number, N}], A, _) when Operator =/= '+', Operator =/= '-', Operator =/= '*' -> against(Operator, A, N);
among_floats(Operator, [{number, N}, unknown], _, B) when Operator =/= '+', Operator =/= '-', Operator =/= '*' -> against(turned(Operator), B, N);
among_floats(_, _, _, _) -> no.

-spec turned(atom()) -> atom().
turned('<') -> '>';
turned('>') -> '<';
turned('=<') -> '>=';
turned('>=') -> '=<'.

%% A value that is this number, as an integer or as a float.
-spec same(atom(), expression(), number()) -> expression() | no.
same(Operator, A, N) ->
    Join = case Operator of '==' -> 'orelse'; '/=' -> 'andalso' end,
    case lists:append([[{int, trunc(N)} || trunc(N) == N, abs(N) < 1 bsl 63], [written(float(N)) || is_exact(N)]]) of
        [Only] when is_float(N) -> {op, Operator, A, Only};
        [First, Second] -> {op, Join, {op, Operator, A, First}, {op, Operator, A, Second}};
        _ -> no
    end.

%% A value against this number. Of the profile's own order a float, which is a tuple, is above each integer.
-spec against(atom(), expression(), number()) -> expression() | no.
against(Operator, A, N) when abs(N) < 1 bsl 53 ->
    Whole = {int, case lists:member(Operator, ['<', '>=']) of true -> ceil(N); false -> floor(N) end},
    Among = {op, Operator, A, written(float(N))},
    Own = {op, Operator, A, Whole},
    Float = plain_guard:tagged(A, '#float'),
    case lists:member(Operator, ['<', '=<']) of
        true -> {op, 'orelse', Own, {op, 'andalso', Float, Among}};
        false -> {op, 'andalso', Own, {op, 'orelse', {op, '==', Float, {atom, false}}, Among}}
    end;
against(_, _, _) -> no.

-spec is_exact(number()) -> boolean().
is_exact(N) -> is_float(N) orelse abs(N) =< 1 bsl 53.

-spec written(float()) -> expression().
written(Float) -> {tuple, [{atom, '#float'}, {int, key(Float)}]}.
