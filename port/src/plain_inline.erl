%% @doc A value that is bound and used once, where nothing but values is evaluated between, is written where it is used. A binding costs two
%% steps of a run, and the order of evaluation stays.
-module(plain_inline).
-export([body/1]).

-define(DEEPEST, 40).
-type expression() :: plain_text:expression().

%% @doc A body with as few bindings as may be.
-spec body(plain_text:body()) -> plain_text:body().
body([Element | Rest]) -> joined(inner(Element), body(Rest));
body([]) -> [].

-spec inner(expression()) -> expression().
inner({match, Pattern, Value}) -> {match, Pattern, inner(Value)};
inner({'case', Value, Clauses}) -> {'case', inner(Value), [{P, G, body(B)} || {P, G, B} <- Clauses]};
inner({recv, Clauses}) -> {recv, [{P, G, body(B)} || {P, G, B} <- Clauses]};
inner({'if', Branches}) -> {'if', [{G, body(B)} || {G, B} <- Branches]};
inner({call, Function, Arguments}) -> {call, Function, [inner(A) || A <- Arguments]};
inner(Expression) -> Expression.

-spec joined(expression(), plain_text:body()) -> plain_text:body().
joined({match, {var, _} = Variable, Value} = Element, [Next | Rest] = Body) ->
    Once = length([V || V <- plain_text:variables(Body), V =:= Variable]) =:= 1,
    case Once andalso depth(Value) + depth(Next) < ?DEEPEST andalso place(Variable, Value, Next) of
        {placed, Placed} -> [Placed | Rest];
        _ -> [Element | Body]
    end;
joined(Element, Body) -> [Element | Body].

%% The expression with the value in the place of the variable; `value' where the variable isn't in it and it has no effect; else `effect'.
-spec place(expression(), expression(), expression()) -> {placed, expression()} | value | effect.
place(Variable, Value, Variable) -> {placed, Value};
place(_, _, {Kind, _}) when Kind =:= var; Kind =:= int; Kind =:= atom -> value;
place(_, _, nil) -> value;
place(Variable, Value, {tuple, Elements}) -> rebuilt(parts(Variable, Value, Elements), fun(New) -> {tuple, New} end, value);
place(Variable, Value, {cons, Head, Tail}) -> rebuilt(parts(Variable, Value, [Head, Tail]), fun([H, T]) -> {cons, H, T} end, value);
place(Variable, Value, {call, Function, Arguments}) -> rebuilt(parts(Variable, Value, Arguments), fun(New) -> {call, Function, New} end, effect);
place(Variable, Value, {op, Operator, A, B}) when Operator =:= 'andalso'; Operator =:= 'orelse' ->
    rebuilt(parts(Variable, Value, [A]), fun([New]) -> {op, Operator, New, B} end, effect);
place(Variable, Value, {op, Operator, A, B}) -> rebuilt(parts(Variable, Value, [A, B]), fun([X, Y]) -> {op, Operator, X, Y} end, effect);
place(Variable, Value, {neg, A}) -> rebuilt(parts(Variable, Value, [A]), fun([New]) -> {neg, New} end, effect);
place(Variable, Value, {match, Pattern, A}) -> rebuilt(parts(Variable, Value, [A]), fun([New]) -> {match, Pattern, New} end, effect);
place(Variable, Value, {'case', A, Clauses}) -> rebuilt(parts(Variable, Value, [A]), fun([New]) -> {'case', New, Clauses} end, effect);
place(_, _, _) -> effect.

-spec rebuilt({placed, [expression()]} | value | effect, fun(([expression()]) -> expression()), value | effect) -> {placed, expression()} | value | effect.
rebuilt({placed, New}, Whole, _) -> {placed, Whole(New)};
rebuilt(value, _, Otherwise) -> Otherwise;
rebuilt(effect, _, _) -> effect.

%% Parts are evaluated from left to right: values may stand before the variable.
-spec parts(expression(), expression(), [expression()]) -> {placed, [expression()]} | value | effect.
parts(_, _, []) -> value;
parts(Variable, Value, [Part | Parts]) ->
    case place(Variable, Value, Part) of
        {placed, New} -> {placed, [New | Parts]};
        value ->
            case parts(Variable, Value, Parts) of
                {placed, New} -> {placed, [Part | New]};
                Other -> Other
            end;
        effect -> effect
    end.

-spec depth(term()) -> non_neg_integer().
depth(Tree) when is_tuple(Tree) -> 1 + lists:max([0 | [depth(Part) || Part <- tuple_to_list(Tree)]]);
depth([_ | _] = Parts) -> lists:max([depth(Part) || Part <- Parts]);
depth(_) -> 0.
