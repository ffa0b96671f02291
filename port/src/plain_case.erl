%% @doc `case' and `if'.
-module(plain_case).
-export(['case'/5, held/5, up_to_certain/1, without_failure/2]).

-type environment() :: plain_tree:environment().
-type mode() :: plain_reach:mode().
-type tree() :: plain_tree:tree().
-type clauses() :: [plain_tree:clause()].

%% @doc Clauses up to the first that always fits.
-spec up_to_certain(clauses()) -> clauses().
up_to_certain([{Patterns, Guard, _} = Clause | Rest]) ->
    case plain_tree:is_true(Guard) andalso lists:all(fun({v, _}) -> true; (_) -> false end, Patterns) of
        true -> [Clause];
        false -> [Clause | up_to_certain(Rest)]
    end;
up_to_certain([]) -> [].

%% @doc Clauses without a last one that raises what the profile raises there itself.
-spec without_failure(clauses(), function_clause | case_clause) -> clauses().
without_failure(Clauses, Kind) ->
    case lists:last(Clauses) of
        {Patterns, _, {primop, match_fail, [Reason], _}} when length(Clauses) > 1 ->
            case is_failure(Kind, Reason, Patterns) of
                true -> lists:droplast(Clauses);
                false -> Clauses
            end;
        _ -> Clauses
    end.

-spec is_failure(function_clause | case_clause, tree(), [tree()]) -> boolean().
is_failure(function_clause, {tup, [{lit, function_clause, _} | _]}, _) -> true;
is_failure(function_clause, {lit, {function_clause}, _}, _) -> true;
is_failure(case_clause, {tup, [{lit, case_clause, _}, Value]}, [Value]) -> true;
is_failure(_, _, _) -> false.

%% @doc A case of Core: of one subject, of several, or of none, which is an `if'.
-spec 'case'([tree()], clauses(), plain_tree:line(), environment(), mode()) -> plain_text:body().
'case'([{lit, Atom, _} = Subject], Clauses, Line, Env, Mode) when is_atom(Atom) ->
    case decided(Atom, Clauses) of
        {ok, Body} -> plain_body:body(Body, Env, Mode);
        no -> held([Subject], Clauses, Line, Env, Mode)
    end;
'case'([], Clauses, _, Env, Mode) ->
    [{[], Guard, Body} | _] = Wanted = up_to_certain(Clauses),
    case plain_tree:is_true(Guard) of
        true -> plain_body:body(Body, Env, Mode);
        false -> branches(Wanted, Env, Mode)
    end;
'case'([{tup, Elements}], Clauses, Line, Env, Mode) when length(Elements) > 1 ->
    case lists:all(fun({[{tup, Patterns}], _, _}) -> length(Patterns) =:= length(Elements); (_) -> false end, Clauses) of
        true -> 'case'(Elements, [{Patterns, Guard, Body} || {[{tup, Patterns}], Guard, Body} <- Clauses], Line, Env, Mode);
        false -> of_values([{tup, Elements}], Clauses, Line, Env, Mode)
    end;
'case'(Subjects, Clauses, Line, Env, Mode) -> of_values(Subjects, Clauses, Line, Env, Mode).

-spec of_values([tree()], clauses(), plain_tree:line(), environment(), mode()) -> plain_text:body().
of_values(Subjects, Clauses, Line, Env, Mode) ->
    case {lists:all(fun plain_tree:simple/1, Subjects), Subjects, Mode} of
        {true, _, _} -> held(Subjects, Clauses, Line, Env, Mode);
        {false, [Subject], plain} -> evaluated(Subject, Clauses, Line, Env, Mode);
        {false, _, _} -> plain_body:body(subjects_first(Subjects, Clauses, Line), Env, Mode)
    end.

-spec decided(atom(), clauses()) -> {ok, tree()} | no.
decided(Atom, [{[{lit, Atom, _}], {lit, true, _}, Body} | _]) -> {ok, Body};
decided(Atom, [{[{lit, Other, _}], _, _} | Rest]) when Atom =/= Other -> decided(Atom, Rest);
decided(_, _) -> no.

-spec subjects_first([tree()], clauses(), plain_tree:line()) -> tree().
subjects_first(Subjects, Clauses, Line) ->
    {Values, Bound} = lists:mapfoldl(fun(Subject, Before) ->
        case plain_tree:simple(Subject) of
            true -> {Subject, Before};
            false ->
                Variable = {v, {0, plain_state:fresh()}},
                {Variable, [{Variable, Subject} | Before]}
        end
    end, [], Subjects),
    lists:foldl(fun({Variable, Value}, Rest) -> {'let', [Variable], Value, Rest} end, {'case', Values, Clauses, Line}, Bound).

%% In plain mode what a case looks at may stand in it.
-spec evaluated(tree(), clauses(), plain_tree:line(), environment(), mode()) -> plain_text:body().
evaluated(Subject, Clauses, Line, Env, Mode) ->
    Elements = plain_body:body(Subject, Env, Mode),
    Before = lists:droplast(Elements),
    Variable = {v, {0, plain_state:fresh()}},
    case lists:last(Elements) of
        {Kind, _} = Known when Kind =:= var; Kind =:= atom; Kind =:= int -> Before ++ held([Variable], Clauses, Line, Env#{Variable => Known}, Mode);
        Expression ->
            Wanted = up_to_certain(without_failure(Clauses, case_clause)),
            case lists:all(fun(Clause) -> plain_pattern:is_plain(Clause, Env) end, Wanted) of
                true -> Before ++ chosen(Expression, none, Clauses, Wanted, Env, Mode);
                false ->
                    Name = plain_names:new(),
                    Before ++ [{match, Name, Expression} | held([Variable], Clauses, Line, Env#{Variable => Name}, Mode)]
            end
    end.

%% @doc A case whose subjects are values.
-spec held([tree()], clauses(), plain_tree:line(), environment(), mode()) -> plain_text:body().
held([Subject], Clauses, Line, Env, Mode) ->
    Value = plain_value:value(Subject, Env),
    Wanted = up_to_certain(case Mode of plain -> without_failure(Clauses, case_clause); _ -> Clauses end),
    case Wanted of
        [{[{v, _} = Variable], {lit, true, _}, Body}] -> plain_body:body(Body, Env#{Variable => Value}, Mode);
        _ -> on_value(Value, Clauses, Wanted, Line, Env, Mode)
    end;
held(Subjects, Clauses, Line, Env, Mode) ->
    Wanted = up_to_certain(Clauses),
    case Wanted of
        [{Patterns, {lit, true, _}, Body}] ->
            Inside = lists:foldl(fun({Variable, Subject}, Known) -> Known#{Variable => plain_value:value(Subject, Env)} end, Env, lists:zip(Patterns, Subjects)),
            plain_body:body(Body, Inside, Mode);
        _ ->
            Together = [{[{tup, Patterns}], Guard, Body} || {Patterns, Guard, Body} <- Wanted],
            on_value({tuple, plain_value:values(Subjects, Env)}, Wanted, Together, Line, Env, Mode)
    end.

-spec on_value(plain_text:expression(), clauses(), clauses(), plain_tree:line(), environment(), mode()) -> plain_text:body().
on_value(Value, Clauses, Wanted, Line, Env, Mode) ->
    Whole = case Value of {var, _} -> Value; _ -> none end,
    case lists:all(fun(Clause) -> plain_pattern:is_plain(Clause, Env) end, Wanted) of
        true -> chosen(Value, Whole, Clauses, Wanted, Env, Mode);
        false -> step_by_step(Value, Whole, Wanted, Line, Env, Mode)
    end.

%% A match where the case is one, else a case.
-spec chosen(plain_text:expression(), plain_text:expression() | none, clauses(), clauses(), environment(), mode()) -> plain_text:body().
chosen(Value, Whole, [{[Pattern], {lit, true, _}, Body}, {[W], _, {primop, match_fail, [{tup, [{lit, badmatch, _}, W]}], _}}], _, Env, plain) ->
    {[Written], Inside, Before, _} = plain_pattern:patterns([Pattern], Env, [Whole], {none, Body}),
    known_whole(Whole, Written),
    [{match, Written, Value}] ++ Before ++ plain_body:body(Body, Inside, plain);
chosen(Value, Whole, _, Wanted, Env, Mode) -> [{'case', Value, [clause(Clause, Whole, Env, Mode) || Clause <- Wanted]}].

-spec clause(plain_tree:clause(), plain_text:expression() | none, environment(), mode()) -> plain_text:clause().
clause({[Pattern], Guard, Body}, Whole, Env, Mode) ->
    {Named, Used} = case Whole =/= none andalso plain_tree:mentions(setelement, Body) of
        true -> {{alias, {v, {0, plain_state:fresh()}}, Pattern}, {Body, Pattern}};
        false -> {Pattern, Body}
    end,
    {[Written], Inside, Before, InGuard} = plain_pattern:patterns([Named], Env, [Whole], {Guard, Used}),
    known_whole(Whole, Written),
    {ok, Tests} = plain_guard:guard(Guard, InGuard),
    {Written, Tests, Before ++ plain_body:body(Body, Inside, Mode)}.

-spec known_whole(plain_text:expression() | none, plain_text:expression()) -> ok.
known_whole({var, _} = Whole, {tuple, Elements} = Written) ->
    case lists:member({var, "_"}, Elements) of
        false -> plain_pattern:known_shape(Whole, Written);
        true -> ok
    end;
known_whole(_, _) -> ok.

%% Clauses with maps or binaries of parts, or with guards that the profile lacks, are tried one after the other.
-spec step_by_step(plain_text:expression(), plain_text:expression() | none, clauses(), plain_tree:line(), environment(), mode()) -> plain_text:body().
step_by_step(Value, Whole, Clauses, Line, Env, Mode) ->
    case lists:splitwith(fun(Clause) -> plain_pattern:is_plain(Clause, Env) end, Clauses) of
        {Plain, []} -> [{'case', Value, [clause(Clause, Whole, Env, Mode) || Clause <- Plain]}];
        {[_ | _] = Plain, Rest} ->
            Written = [clause(Clause, Whole, Env, Mode) || Clause <- Plain],
            [{'case', Value, Written ++ [{{var, "_"}, [], step_by_step(Value, Whole, Rest, Line, Env, Mode)}]}];
        {[], [Clause | More]} -> one_step(Clause, More, {Value, Whole}, Line, Env, Mode)
    end.

-spec one_step(plain_tree:clause(), clauses(), {plain_text:expression(), plain_text:expression() | none}, plain_tree:line(), environment(), mode()) ->
    plain_text:body().
one_step({[Pattern], Guard, Body}, More, {Value, Whole}, Line, Env, Mode) ->
    {Outer, Conditions} = plain_pattern:with_conditions(Pattern),
    Used = plain_tree:occurring(Body),
    Variables = [V || {v, _} = V <- lists:sort(sets:to_list(plain_tree:occurring(Pattern))), sets:is_element(V, Used), not maps:is_key(V, Env)],
    Selection = selected([{Outer, Value, Whole} | Conditions], Guard, Variables, Env),
    {Names, Inside} = lists:mapfoldl(fun(V, Known) -> Name = plain_names:variable(V), {Name, Known#{V => Name}} end, Env, Variables),
    Else = case More of
        [] -> [plain_body:failure(error, {tuple, [{atom, case_clause}, Value]}, Mode)];
        _ -> step_by_step(Value, Whole, More, Line, Env, Mode)
    end,
    lists:droplast(Selection) ++
        [{'case', lists:last(Selection), [{{tuple, [{atom, m} | Names]}, [], plain_body:body(Body, Inside, Mode)}, {{var, "_"}, [], Else}]}].

%% The value {m, Variables..} where the clause is to be taken, else false.
-spec selected([tuple()], tree(), [tree()], environment()) -> plain_text:body().
selected([{Pattern, Value, Whole} | Rest], Guard, Variables, Env) ->
    {[Written], Inside, Before, InGuard} = plain_pattern:patterns([Pattern], Env, [Whole], {{Rest, Guard}, {Variables, Rest, Guard}}),
    {Tests, Then} = case Rest of
        [] -> last_test(Guard, InGuard, {tuple, [{atom, m} | plain_value:values(Variables, Inside)]}, Inside);
        [{{Module, Function, Arguments}, Inner} | More] ->
            plain_reach:need({function, Module, Function, length(Arguments), plain}),
            Lookup = {call, plain_reach:name(Module, Function, length(Arguments)), plain_value:values(Arguments, Inside)},
            {[], selected([{{tup, [{lit, ok, 0}, Inner]}, Lookup, none} | More], Guard, Variables, Inside)}
    end,
    [{'case', Value, [{Written, Tests, Before ++ Then}, {{var, "_"}, [], [{atom, false}]}]}].

-spec last_test(tree(), environment(), plain_text:expression(), environment()) -> {plain_text:guard(), plain_text:body()}.
last_test(Guard, InGuard, Found, Env) ->
    case plain_guard:guard(Guard, InGuard) of
        {ok, Tests} -> {Tests, [Found]};
        complex -> {[], guarded(Guard, Found, Env)}
    end.

-spec guarded(tree(), plain_text:expression(), environment()) -> plain_text:body().
guarded(Guard, Found, Env) ->
    Elements = plain_body:body(Guard, Env, checked),
    Holds = {tuple, [{atom, v}, {atom, true}]},
    lists:droplast(Elements) ++ [{'case', lists:last(Elements), [{Holds, [], [Found]}, {{var, "_"}, [], [{atom, false}]}]}].

-spec branches(clauses(), environment(), mode()) -> plain_text:body().
branches([{[], Guard, Body} | More] = Clauses, Env, Mode) ->
    Guards = [plain_guard:guard(G, Env) || {_, G, _} <- Clauses],
    case {lists:member(complex, Guards), hd(Guards)} of
        {false, _} -> [{'if', [{Tests, plain_body:body(B, Env, Mode)} || {{ok, Tests}, {_, _, B}} <- lists:zip(Guards, Clauses)]}];
        {true, {ok, []}} -> plain_body:body(Body, Env, Mode);
        {true, {ok, Tests}} -> [{'if', [{Tests, plain_body:body(Body, Env, Mode)}, {[], branches(More, Env, Mode)}]}];
        {true, complex} ->
            Elements = plain_body:body(Guard, Env, checked),
            Holds = {tuple, [{atom, v}, {atom, true}]},
            lists:droplast(Elements) ++
                [{'case', lists:last(Elements), [{Holds, [], plain_body:body(Body, Env, Mode)}, {{var, "_"}, [], branches(More, Env, Mode)}]}]
    end.
