%% @doc Generators of EUnit with some of their tests alone, or with their tests left empty, so that what only the others
%% need isn't reached. What makes tests is followed where it is a term; tests that are made in another way stay.
-module(plain_cut).
-export([forms/2, is_test/1, is_generator/1]).
-export_type([cuts/0, path/0]).

-type form() :: erl_parse:abstract_form().
-type expr() :: erl_parse:abstract_expr().
-type path() :: [pos_integer()].
%% The paths of the tests that stay; or all, each left empty, to list them.
-type wanted() :: [path()] | all.
%% What is wanted of generators, by module and name.
-type cuts() :: #{{module(), atom()} => wanted()}.

%% @doc Whether EUnit takes a function of this name for a test.
-spec is_test(atom()) -> boolean().
is_test(Function) -> is_generator(Function) orelse lists:suffix("_test", atom_to_list(Function)).

%% @doc Whether it takes it for one that makes tests.
-spec is_generator(atom()) -> boolean().
is_generator(Function) -> lists:suffix("_test_", atom_to_list(Function)).

%% @doc The forms of a module with its generators cut.
-spec forms([form()], cuts()) -> [form()].
forms(Forms, Cuts) ->
    case lists:keyfind(module, 3, Forms) of
        {attribute, _, module, Module} -> [form(Form, Module, Cuts) || Form <- Forms];
        false -> Forms
    end.

-spec form(form(), module(), cuts()) -> form().
form({function, Line, Function, 0, Clauses} = Form, Module, Cuts) ->
    case Cuts of
        #{{Module, Function} := Wanted} -> {function, Line, Function, 0, clauses(Clauses, Wanted)};
        _ -> Form
    end;
form(Form, _, _) -> Form.

%% What a function answers is at the end of each of its clauses.
-spec clauses([erl_parse:abstract_clause()], wanted()) -> [erl_parse:abstract_clause()].
clauses(Clauses, Wanted) ->
    [{clause, Line, Patterns, Guard, lists:droplast(Body) ++ [tests(lists:last(Body), Wanted)]}
     || {clause, Line, Patterns, Guard, Body} <- Clauses].

%% A test set: it has the shapes that the library's pf_eunit knows.
-spec tests(expr(), wanted()) -> expr().
tests({'fun', Line, {function, _, 0}}, all) -> empty(Line);
tests({'fun', Line, {function, _, _, {integer, _, 0}}}, all) -> empty(Line);
tests({'fun', Line, {clauses, [{clause, _, [], _, _} | _]}}, all) -> empty(Line);
tests({tuple, Line, [{atom, _, with} = Kind, Value, Functions]}, Wanted) when Wanted =/= all ->
    {tuple, Line, [Kind, Value, listed(Functions, fun(Function, _) -> Function end, Wanted)]};
tests({tuple, Line, [{atom, _, generator} = Kind, {'fun', At, {clauses, Clauses}}]}, Wanted) ->
    {tuple, Line, [Kind, {'fun', At, {clauses, clauses(Clauses, Wanted)}}]};
tests({tuple, Line, [{atom, _, Kind} | _] = Elements}, Wanted) when Kind =:= setup; Kind =:= foreach ->
    last(Line, Elements, fun made/2, Wanted);
tests({tuple, Line, [{atom, _, Kind} | _] = Elements}, Wanted)
  when Kind =:= spawn; Kind =:= inorder; Kind =:= inparallel; Kind =:= timeout ->
    last(Line, Elements, fun tests/2, Wanted);
tests({tuple, Line, [{Title, _, _}, _] = Elements}, Wanted) when Title =:= integer; Title =:= string; Title =:= bin ->
    last(Line, Elements, fun tests/2, Wanted);
tests({cons, _, _, _} = List, Wanted) -> listed(List, fun tests/2, Wanted);
tests(Other, _) -> Other.

-spec last(erl_anno:anno(), [expr()], fun((expr(), wanted()) -> expr()), wanted()) -> expr().
last(Line, Elements, Cut, Wanted) -> {tuple, Line, lists:droplast(Elements) ++ [Cut(lists:last(Elements), Wanted)]}.

%% What makes tests of the value of a setup, or tests, or several of these.
-spec made(expr(), wanted()) -> expr().
made({'fun', Line, {clauses, [{clause, _, [_], _, _} | _] = Clauses}}, Wanted) ->
    {'fun', Line, {clauses, clauses(Clauses, Wanted)}};
made({tuple, Line, [{Title, _, _}, _] = Elements}, Wanted) when Title =:= string; Title =:= bin ->
    last(Line, Elements, fun made/2, Wanted);
made({cons, _, _, _} = List, Wanted) -> listed(List, fun made/2, Wanted);
made(Tests, Wanted) -> tests(Tests, Wanted).

%% The elements of a list in the source: those that are wanted, with the atom `other' in the place of the others.
-spec listed(expr(), fun((expr(), wanted()) -> expr()), wanted()) -> expr().
listed(List, Cut, all) -> each(List, 1, fun(Element, _) -> Cut(Element, all) end);
listed(List, Cut, Wanted) ->
    each(List, 1, fun(Element, Place) ->
        case [Rest || [At | Rest] <- Wanted, At =:= Place] of
            [] -> other(Element);
            Paths -> Cut(Element, Paths)
        end
    end).

-spec each(expr(), pos_integer(), fun((expr(), pos_integer()) -> expr())) -> expr().
each({cons, Line, Head, Tail}, Place, Each) -> {cons, Line, Each(Head, Place), each(Tail, Place + 1, Each)};
each(End, _, _) -> End.

%% What calls something to make a test stays, since the call may do more.
-spec other(expr()) -> expr().
other(Test) -> case is_term(Test) of true -> {atom, element(2, Test), other}; false -> Test end.

-spec is_term(expr()) -> boolean().
is_term({'fun', _, _}) -> true;
is_term({tuple, _, Elements}) -> lists:all(fun is_term/1, Elements);
is_term({cons, _, Head, Tail}) -> is_term(Head) andalso is_term(Tail);
is_term({bin, _, Elements}) -> lists:all(fun({bin_element, _, Value, _, _}) -> is_term(Value) end, Elements);
is_term({Kind, _, _}) -> lists:member(Kind, [atom, integer, string, var, char]);
is_term({Kind, _}) -> Kind =:= nil;
is_term(_) -> false.

-spec empty(erl_anno:anno()) -> expr().
empty(Line) -> {'fun', Line, {clauses, [{clause, Line, [], [], [{atom, Line, ok}]}]}}.
