%% @doc Queries by list comprehension: in the place of the transform of qlc, `qlc:q' gets a function that evaluates its
%% generators in their order, each once, and then the comprehension over their answers.
-module(plain_query).
-export([forms/1]).

%% @doc The forms of a source without that transform.
-spec forms([term()]) -> [term()].
forms(Forms) ->
    case [without(Form) || Form <- Forms] of
        Forms -> Forms;
        Others -> [made(Form, 1) || Form <- Others]
    end.

-spec without(term()) -> term().
without({attribute, Line, compile, {parse_transform, qlc}}) -> {attribute, Line, compile, []};
without({attribute, Line, compile, Options}) when is_list(Options) ->
    {attribute, Line, compile, lists:delete({parse_transform, qlc}, Options)};
without(Form) -> Form.

%% A form whose queries are within so many others.
-spec made(term(), pos_integer()) -> term().
made({call, Line, {remote, _, {atom, _, qlc}, {atom, _, q}} = Query, [{lc, At, Value, Qualifiers} | Options]}, Depth) ->
    Within = made(Qualifiers, Depth + 1),
    {Answers, Bound} = lists:mapfoldl(fun(Qualifier, Before) -> generated(Qualifier, Before, Depth) end, [], Within),
    Body = lists:reverse(Bound) ++ [{lc, At, made(Value, Depth + 1), Answers}],
    {call, Line, Query, [{'fun', At, {clauses, [{clause, At, [], [], Body}]}} | made(Options, Depth)]};
made(Form, Depth) when is_tuple(Form) -> list_to_tuple(made(tuple_to_list(Form), Depth));
made([Head | Tail], Depth) -> [made(Head, Depth) | made(Tail, Depth)];
made(Other, _) -> Other.

%% A generator over its answers, which a variable has.
-spec generated(tuple(), [term()], pos_integer()) -> {tuple(), [term()]}.
generated({generate, Line, Pattern, Handle}, Bound, Depth) ->
    Answers = {var, Line, list_to_atom(lists:concat(["Answers@", Depth, "@", length(Bound) + 1]))},
    Call = {call, Line, {remote, Line, {atom, Line, qlc}, {atom, Line, generated}}, [Handle]},
    {{generate, Line, Pattern, Answers}, [{match, Line, Answers, Call} | Bound]};
generated(Filter, Bound, _) -> {Filter, Bound}.
