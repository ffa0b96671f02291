%% @doc The profile allows a body 256 levels. What is more than 60 constructs deep becomes a function of its own.
-module(plain_depth).
-export([split/4]).

-define(DEEPEST, 60).
-type keep() :: fun((atom(), arity(), iodata()) -> ok).
-type place() :: {non_neg_integer(), [plain_text:expression()], atom(), keep()}.

%% @doc A body in which nothing is too deep; `Keep' takes the functions that come of it.
-spec split(plain_text:body(), [plain_text:expression()], atom(), keep()) -> plain_text:body().
split(Body, Bound, Name, Keep) -> body(Body, {0, Bound, Name, Keep}).

-spec body(plain_text:body(), place()) -> plain_text:body().
body([{match, Pattern, Value} | Rest], {Depth, Bound, Name, Keep} = Place) ->
    Inner = expression(Value, Place),
    [{match, Pattern, Inner} | body(Rest, {Depth, Bound ++ plain_text:variables(Pattern), Name, Keep})];
body([Expression | Rest], Place) ->
    Inner = expression(Expression, Place),
    [Inner | body(Rest, Place)];
body([], _) -> [].

-spec expression(plain_text:expression(), place()) -> plain_text:expression().
expression({'case', Value, Clauses}, {Depth, Bound, Name, Keep} = Place) ->
    {'case', expression(Value, {Depth + 1, Bound, Name, Keep}), [clause(C, Place) || C <- Clauses]};
expression({recv, Clauses}, Place) -> {recv, [clause(C, Place) || C <- Clauses]};
expression({'if', Branches}, Place) ->
    {'if', [begin {_, _, Inner} = clause({nil, Guard, Body}, Place), {Guard, Inner} end || {Guard, Body} <- Branches]};
expression(Expression, _) -> Expression.

-spec clause(plain_text:clause(), place()) -> plain_text:clause().
clause({Pattern, Guard, Body}, {Depth, Bound, Name, Keep}) ->
    Here = Bound ++ plain_text:variables(Pattern),
    case Depth > ?DEEPEST andalso lists:any(fun nested/1, Body) of
        true -> {Pattern, Guard, [moved(Body, lists:usort(Here), Name, Keep)]};
        false -> {Pattern, Guard, body(Body, {Depth + 1, Here, Name, Keep})}
    end.

-spec moved(plain_text:body(), [plain_text:expression()], atom(), keep()) -> plain_text:expression().
moved(Body, Here, Name, Keep) ->
    Free = [V || V <- lists:usort(plain_text:variables(Body)), lists:member(V, Here)],
    Helper = list_to_atom(lists:concat([Name, "@k", plain_state:fresh()])),
    Text = [plain_text:atom(Helper), "(", lists:join(",", [plain_text:expression(V) || V <- Free]), ")->",
            plain_text:body(split(Body, Free, Name, Keep)), ".\n"],
    Keep(Helper, length(Free), Text),
    {call, Helper, Free}.

-spec nested(plain_text:expression()) -> boolean().
nested({match, _, Value}) -> nested(Value);
nested({'case', _, _}) -> true;
nested({recv, _}) -> true;
nested({'if', _}) -> true;
nested(_) -> false.
