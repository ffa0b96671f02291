%% @doc Bodies, in each mode: plain, where a body returns its value and an error ends the process; checked and traced, where it
%% returns {v, Value} or {x, Class, Reason}, so that who calls it can catch.
-module(plain_body).
-export([body/3, returned/2, failure/3, bound/3]).

-type environment() :: plain_tree:environment().
-type mode() :: plain_reach:mode().
-type tree() :: plain_tree:tree().

%% @doc What a body returns in a mode.
-spec returned(plain_text:expression(), mode()) -> plain_text:expression().
returned(Value, plain) -> Value;
returned(Value, _) -> {tuple, [{atom, v}, Value]}.

%% @doc An error in a mode.
-spec failure(error | exit | throw, plain_text:expression(), mode()) -> plain_text:expression().
failure(error, {tuple, [{atom, Kind}, Value]} = Reason, plain) ->
    case plain_trace:ended(Kind, Value) of
        none -> plain_trace:action(exit, [{tuple, [Reason, nil]}]);
        Call -> Call
    end;
failure(error, Reason, plain) -> plain_trace:action(exit, [{tuple, [Reason, nil]}]);
failure(exit, Reason, plain) -> plain_trace:action(exit, [Reason]);
failure(throw, Reason, plain) -> plain_trace:action(exit, [{tuple, [{tuple, [{atom, nocatch}, Reason]}, nil]}]);
failure(Class, Reason, _) -> plain_trace:thrown({atom, Class}, Reason).

%% @doc An environment in which a variable is a value.
-spec bound(plain_tree:variable(), plain_text:expression(), environment()) -> environment().
bound(Variable, Value, Env) ->
    plain_pattern:known_shape(Variable, Value),
    Env#{Variable => Value}.

%% @doc The elements of a body for a tree.
-spec body(tree(), environment(), mode()) -> plain_text:body().
body(Tree, Env, Mode) ->
    case plain_tree:simple(Tree) of
        true -> [returned(plain_value:value(Tree, Env), Mode)];
        false -> other(Tree, Env, Mode)
    end.

-spec other(tree(), environment(), mode()) -> plain_text:body().
other({'let', _, _, _} = Let, Env, Mode) -> 'let'(Let, Env, Mode);
other({letrec, Definitions, Body}, Env, Mode) -> body(Body, defined(Definitions, Env), Mode);
other({'case', Subjects, Clauses, Line}, Env, Mode) -> plain_case:'case'(Subjects, Clauses, Line, Env, Mode);
other({apply, _, _, _} = Apply, Env, Mode) -> plain_call:apply(Apply, Env, Mode);
other({call, Module, Function, Arguments, Line}, Env, Mode) -> plain_call:call(Module, Function, Arguments, Line, Env, Mode);
other({primop, Name, Arguments, Line}, Env, Mode) -> primitive(Name, Arguments, Line, Env, Mode);
other({'try', Body, [], Value, Caught, Handler}, Env, Mode) ->
    'try'(Body, {v, {'_', plain_state:fresh()}}, Value, {Caught, Handler}, Env, Mode);
other({'try', Body, [Variable], Value, Caught, Handler}, Env, Mode) -> 'try'(Body, Variable, Value, {Caught, Handler}, Env, Mode);
other({'catch', Body}, Env, Mode) -> 'catch'(Body, Env, Mode);
other({map, Map, Pairs, Line}, Env, Mode) -> updates(Map, Pairs, Line, Env, Mode);
other({recv, Clauses, Time, Action, Line}, Env, Mode) -> plain_receive:'receive'(Clauses, Time, Action, Line, Env, Mode);
other({tup, Elements}, Env, Mode) -> flattened(Elements, fun(Values) -> {tup, Values} end, Env, Mode);
other({vals, Elements}, Env, Mode) -> flattened(Elements, fun(Values) -> {vals, Values} end, Env, Mode);
other({cons, Head, Tail}, Env, Mode) -> flattened([Head, Tail], fun([H, T]) -> {cons, H, T} end, Env, Mode);
other(_, _, _) -> plain_refusal:refuse("this construct has no translation; write it by a function of its own", []).

%% Parts that aren't values are bound before.
-spec flattened([tree()], fun(([tree()]) -> tree()), environment(), mode()) -> plain_text:body().
flattened(Elements, Whole, Env, Mode) ->
    {Values, Bound} = lists:mapfoldl(fun(Element, Before) ->
        case plain_tree:simple(Element) of
            true -> {Element, Before};
            false ->
                Variable = {v, {0, plain_state:fresh()}},
                {Variable, [{Variable, Element} | Before]}
        end
    end, [], Elements),
    body(lets(lists:reverse(Bound), Whole(Values)), Env, Mode).

-spec lets([{plain_tree:variable(), tree()}], tree()) -> tree().
lets(Bound, Body) -> lists:foldr(fun({Variable, Value}, Rest) -> {'let', [Variable], Value, Rest} end, Body, Bound).

-spec 'let'(tree(), environment(), mode()) -> plain_text:body().
'let'({'let', Outer, {'let', Inner, A, B}, C}, Env, Mode) -> 'let'({'let', Inner, A, {'let', Outer, B, C}}, Env, Mode);
'let'({'let', Outer, {letrec, Definitions, B}, C}, Env, Mode) -> other({letrec, Definitions, {'let', Outer, B, C}}, Env, Mode);
'let'({'let', [Variable], Value, Body}, Env, Mode) when element(1, Value) =:= v; element(1, Value) =:= lit; element(1, Value) =:= fref ->
    body(Body, bound(Variable, plain_value:value(Value, Env), Env), Mode);
'let'({'let', Variables, {vals, Values}, Body}, Env, Mode) when length(Variables) =:= length(Values) ->
    body(lets(lists:zip(Variables, Values), Body), Env, Mode);
'let'({'let', [], Value, Body}, Env, Mode) ->
    case plain_tree:simple(Value) of
        true -> body(Body, Env, Mode);
        false -> bind([], Value, Body, Env, Mode)
    end;
'let'({'let', Variables, Value, Body}, Env, Mode) -> bind(Variables, Value, Body, Env, Mode).

-spec defined([{term(), [plain_tree:variable()], tree(), plain_tree:line()}], environment()) -> environment().
defined(Definitions, Env) ->
    Bodies = [{Variables, Body} || {_, Variables, Body, _} <- Definitions],
    Free = plain_tree:free(Bodies, Env),
    Inside = lists:foldl(fun({Identity, _, _, _}, Known) -> Known#{{lref, Identity} => {plain_value:lifted_name(Identity), Free}} end, Env, Definitions),
    lists:foreach(fun({Identity, Variables, Body, Line}) ->
        plain_value:lift(element(1, maps:get({lref, Identity}, Inside)), Variables, Body, Line, Inside, Bodies)
    end, Definitions),
    Inside.

%% Variables = Value, then Body.
-spec bind([plain_tree:variable()], tree(), tree(), environment(), mode()) -> plain_text:body().
bind(Variables, Value, Body, Env, Mode) ->
    ValueMode = case Mode =:= plain orelse safe(Value) of true -> plain; false -> Mode end,
    Elements = body(Value, Env, ValueMode),
    Before = lists:droplast(Elements),
    Last = lists:last(Elements),
    {Pattern, Inside} = binder(Variables, Body, Last, ValueMode, Env),
    case {ValueMode, Last} of
        {plain, _} when Pattern =:= {var, "_"} -> Elements ++ body(Body, Inside, Mode);
        {plain, _} -> Before ++ [{match, Pattern, Last} | body(Body, Inside, Mode)];
        {_, {tuple, [{atom, v}, Known]}} when Pattern =:= {var, "_"} -> Before ++ [Known || is_tuple(Known), element(1, Known) =:= call] ++ body(Body, Inside, Mode);
        {_, {tuple, [{atom, v}, Known]}} -> Before ++ [{match, Pattern, Known} | body(Body, Inside, Mode)];
        _ ->
            case plain_trace:is_thrown(Last) of
                true -> Elements;
                false ->
                    Other = plain_names:new(),
                    Before ++ [{'case', Last, [{{tuple, [{atom, v}, Pattern]}, [], body(Body, Inside, Mode)}, {Other, [], [Other]}]}]
            end
    end.

-spec binder([plain_tree:variable()], tree(), plain_text:expression(), mode(), environment()) -> {plain_text:expression(), environment()}.
binder([], _, _, _, Env) -> {{var, "_"}, Env};
binder([Variable], Body, Last, Mode, Env) ->
    case sets:is_element(Variable, plain_tree:occurring(Body)) of
        false -> {{var, "_"}, Env};
        true ->
            Name = plain_names:variable(Variable),
            Mode =:= plain andalso flat(Last) andalso plain_pattern:known_shape(Variable, Last),
            {Name, Env#{Variable => Name}}
    end;
binder(Variables, _, _, _, Env) ->
    {Names, Inside} = lists:mapfoldl(fun(Variable, Known) ->
        Name = plain_names:variable(Variable),
        {Name, Known#{Variable => Name}}
    end, Env, Variables),
    {{tuple, Names}, Inside}.

-spec flat(plain_text:expression()) -> boolean().
flat({tuple, Elements}) -> lists:all(fun(nil) -> true; ({Kind, _}) -> lists:member(Kind, [var, atom, int]); (_) -> false end, Elements);
flat(_) -> false.

%% Whether a tree can't raise.
-spec safe(tree()) -> boolean().
safe({call, {lit, erlang, _}, {lit, Function, _}, Arguments, _}) ->
    lists:member({Function, length(Arguments)},
        [{'<', 2}, {'>', 2}, {'=<', 2}, {'>=', 2}, {'==', 2}, {'/=', 2}, {'=:=', 2}, {'=/=', 2}, {self, 0}, {make_ref, 0}, {whereis, 1}, {spawn, 1},
         {spawn, 3}, {spawn_link, 1}, {spawn_link, 3}, {is_integer, 1}, {is_atom, 1}, {is_tuple, 1}, {is_list, 1}, {is_pid, 1}, {is_reference, 1},
         {is_map, 1}, {is_function, 1}, {is_function, 2}, {is_boolean, 1}, {is_binary, 1}, {demonitor, 1}, {process_flag, 2}, {exit, 2}, {node, 0}])
    andalso lists:all(fun plain_tree:simple/1, Arguments);
safe({primop, build_stacktrace, _, _}) -> true;
safe(Tree) -> plain_tree:simple(Tree).

-spec primitive(atom(), [tree()], plain_tree:line(), environment(), mode()) -> plain_text:body().
primitive(match_fail, [Reason], Line, Env, Mode) ->
    at(Line),
    case {Reason, Mode =/= plain andalso plain_trace:with_arguments()} of
        {{tup, [{lit, function_clause, _} | Arguments]}, true} -> [plain_trace:no_clause(plain_value:values(Arguments, Env))];
        {{tup, [{lit, function_clause, _} | _]}, false} -> [failure(error, {atom, function_clause}, Mode)];
        {{lit, {function_clause}, _}, _} -> [failure(error, {atom, function_clause}, Mode)];
        _ -> [failure(error, plain_value:value(Reason, Env), Mode)]
    end;
primitive(raise, [Raw, Reason], _, Env, Mode) ->
    {Class, Stack} = plain_trace:raw_parts(plain_value:value(Raw, Env)),
    raised(Class, Reason, Stack, Env, Mode);
primitive(raw_raise, [Class, Reason, Stack], _, Env, Mode) -> raised(plain_value:value(Class, Env), Reason, plain_value:value(Stack, Env), Env, Mode);
primitive(build_stacktrace, [Raw], _, Env, Mode) ->
    plain_refusal:note_once(stacktrace, "a stack trace is [] here"),
    {_, Stack} = plain_trace:raw_parts(plain_value:value(Raw, Env)),
    [returned(Stack, Mode)];
primitive(bs_init_writable, _, _, _, Mode) -> [returned({tuple, [{atom, '#bin'}, nil]}, Mode)];
primitive(Name, _, Line, _, _) -> plain_refusal:refuse(Line, "the primitive ~w has no translation; write it by other constructs", [Name]).

-spec at(plain_tree:line()) -> ok.
at(0) -> ok;
at(Line) -> plain_state:put(line, Line).

-spec raised(plain_text:expression(), tree(), plain_text:expression(), environment(), mode()) -> plain_text:body().
raised(Class, Reason, _, Env, plain) ->
    plain_reach:use(raise),
    [{call, 'raise@', [Class, plain_value:value(Reason, Env)]}];
raised(Class, Reason, Stack, Env, _) -> [plain_trace:thrown(Class, plain_value:value(Reason, Env), Stack)].

-spec note_limits(tree()) -> ok.
note_limits(Body) ->
    at(plain_tree:line(Body)),
    plain_refusal:note_once(limits, "an error of the limits (a value over 4,096 nodes, an integer past 64 bits) ends the process and is not caught").

-spec 'try'(tree(), plain_tree:variable(), tree(), {[plain_tree:variable()], tree()}, environment(), mode()) -> plain_text:body().
'try'(Body, Variable, Value, {Caught, Handler}, Env, Mode) ->
    note_limits(Body),
    Elements = body(Body, Env, checked),
    [Class, Reason, Stack] = case Caught of [_, _, _] -> Caught; [C, R] -> [C, R, {v, {'S', plain_state:fresh()}}] end,
    Name = plain_names:variable(Variable),
    [ClassName, ReasonName, StackName] = [plain_names:variable(V) || V <- [Class, Reason, Stack]],
    InValue = bound(Variable, Name, Env),
    InHandler = Env#{Class => ClassName, Reason => ReasonName, Stack => plain_trace:raw(ClassName, StackName)},
    lists:droplast(Elements) ++
        [{'case', lists:last(Elements),
          [{{tuple, [{atom, v}, Name]}, [], body(Value, InValue, Mode)},
           {plain_trace:caught(ClassName, ReasonName, StackName), [], body(Handler, InHandler, Mode)}]}].

-spec 'catch'(tree(), environment(), mode()) -> plain_text:body().
'catch'(Body, Env, Mode) ->
    note_limits(Body),
    Elements = body(Body, Env, checked),
    [Value, Reason, Stack] = [plain_names:new(), plain_names:new(), plain_names:new()],
    Caught = fun(Class, Reported) -> {plain_trace:caught({atom, Class}, Reason, Stack), [], [returned(Reported, Mode)]} end,
    Exit = fun(Reported) -> {tuple, [{atom, 'EXIT'}, Reported]} end,
    lists:droplast(Elements) ++
        [{'case', lists:last(Elements),
          [{{tuple, [{atom, v}, Value]}, [], [returned(Value, Mode)]}, Caught(throw, Reason), Caught(exit, Exit(Reason)),
           Caught(error, Exit({tuple, [Reason, plain_trace:stack_of(Stack)]}))]}].

-spec updates(tree(), [{assoc | exact, tree(), tree()}], plain_tree:line(), environment(), mode()) -> plain_text:body().
updates(Map, Pairs, Line, Env, Mode) ->
    at(Line),
    {Last, Bound} = lists:foldl(fun({Kind, Key, Value}, {Before, Lets}) ->
        Function = case Kind of assoc -> put; exact -> update end,
        Variable = {v, {0, plain_state:fresh()}},
        {Variable, [{Variable, {call, {lit, maps, Line}, {lit, Function, Line}, [Key, Value, Before], Line}} | Lets]}
    end, {Map, []}, Pairs),
    plain_refusal:note_once(maps, "a map is a list of pairs here, in the order of its keys; code that depends on the order of a map of over 32 keys, which Erlang leaves open, may go otherwise"),
    body(lets(lists:reverse(Bound), Last), Env, Mode).
