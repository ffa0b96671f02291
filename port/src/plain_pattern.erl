%% @doc Patterns. The profile has no name for a part of a pattern, so such a part is built again in the body.
-module(plain_pattern).
-export([uncovered/1, patterns/4, is_plain/2, with_conditions/1, known_shape/2]).

-type environment() :: plain_tree:environment().
-type aliases() :: [{plain_tree:tree(), plain_text:expression()}].
-type scope() :: {environment(), aliases()}.

%% @doc Patterns, the environment of the body, elements before the body, and the environment of the guard. `Subjects' are the
%% variables that the patterns are held against, where there are such; `Rest' is guard and body.
-spec patterns([plain_tree:tree()], environment(), [plain_text:expression() | none], {term(), term()}) ->
    {[plain_text:expression()], environment(), plain_text:body(), environment()}.
patterns(Patterns, Env, Subjects, {_, Body} = Rest) ->
    Used = plain_tree:occurring(Rest),
    Padded = Subjects ++ lists:duplicate(length(Patterns) - length(Subjects), none),
    {Written, {Bound, Aliases}} =
        lists:mapfoldl(fun({Pattern, Subject}, Scope) -> pattern(Pattern, Subject, Used, Scope) end, {Env, []}, lists:zip(Patterns, Padded)),
    InGuard = lists:foldl(fun({Variable, Built}, Known) -> Known#{Variable => Built} end, Bound, Aliases),
    {InBody, Before} = rebuilt(Aliases, Bound, plain_tree:occurring(Body)),
    {Written, InBody, Before, InGuard}.

-spec rebuilt(aliases(), environment(), sets:set(plain_tree:tree())) -> {environment(), plain_text:body()}.
rebuilt(Aliases, Bound, Used) ->
    {Env, Before} = lists:foldl(fun({Variable, Built}, {Known, Elements}) ->
        case sets:is_element(Variable, Used) of
            true ->
                Name = plain_names:variable(Variable),
                known_shape(Variable, Built),
                {Known#{Variable => Name}, [{match, Name, Built} | Elements]};
            false -> {Known#{Variable => Built}, Elements}
        end
    end, {Bound, []}, Aliases),
    {Env, lists:reverse(Before)}.

-spec pattern(plain_tree:tree(), plain_text:expression() | none, sets:set(plain_tree:tree()), scope()) -> {plain_text:expression(), scope()}.
pattern({v, _} = Variable, _, Used, {Env, Aliases}) ->
    case sets:is_element(Variable, Used) of
        true ->
            Name = plain_names:variable(Variable),
            {Name, {Env#{Variable => Name}, Aliases}};
        false -> {{var, "_"}, {Env, Aliases}}
    end;
pattern({lit, Term, Line}, _, _, Scope) -> {plain_value:pattern(Term, Line), Scope};
pattern({tup, Patterns}, _, Used, Scope) ->
    {Written, After} = several(Patterns, Used, Scope),
    {{tuple, Written}, After};
pattern({cons, Head, Tail}, _, Used, Scope) ->
    {[H, T], After} = several([Head, Tail], Used, Scope),
    {{cons, H, T}, After};
pattern({alias, Variable, Pattern}, Subject, Used, {Env, Aliases}) ->
    case sets:is_element(Variable, Used) of
        false -> pattern(Pattern, Subject, Used, {Env, Aliases});
        true when Subject =/= none -> pattern(Pattern, Subject, Used, {Env#{Variable => Subject}, Aliases});
        true -> built_again(Variable, pattern(Pattern, none, sets:union(Used, plain_tree:occurring(Pattern)), {Env, Aliases}))
    end;
pattern({pbin, Bytes, {v, _} = Tail}, _, Used, Scope) ->
    Rest = plain_names:new(),
    {Written, {Env, Aliases}} = several(Bytes, Used, Scope),
    {bytes(Written, Rest), {Env, Aliases ++ [{Tail, {tuple, [{atom, '#bin'}, Rest]}} || sets:is_element(Tail, Used)]}};
pattern({pbin, Bytes, {lit, _, _}}, _, Used, Scope) ->
    {Written, After} = several(Bytes, Used, Scope),
    {bytes(Written, nil), After};
pattern({pmap, _}, _, _, _) -> throw(complex);
pattern({pbits, _, _}, _, _, _) -> throw(complex).

-spec several([plain_tree:tree()], sets:set(plain_tree:tree()), scope()) -> {[plain_text:expression()], scope()}.
several(Patterns, Used, Scope) -> lists:mapfoldl(fun(P, S) -> pattern(P, none, Used, S) end, Scope, Patterns).

-spec bytes([plain_text:expression()], plain_text:expression()) -> plain_text:expression().
bytes(Written, Rest) -> {tuple, [{atom, '#bin'}, lists:foldr(fun(B, Tail) -> {cons, B, Tail} end, Rest, Written)]}.

-spec built_again(plain_tree:tree(), {plain_text:expression(), scope()}) -> {plain_text:expression(), scope()}.
built_again(Variable, {Written, {Env, Aliases}}) ->
    case Written of
        {tuple, [_ | _]} -> {Written, {Env, Aliases ++ [{Variable, Written}]}};
        {cons, _, _} -> {Written, {Env, Aliases ++ [{Variable, Written}]}};
        _ -> {Written, {Env#{Variable => Written}, Aliases}}
    end.

%% @doc Keeps what a variable is known to be, so that an update of a record can be a new tuple.
-spec known_shape(term(), plain_text:expression()) -> ok.
known_shape(Variable, {tuple, Elements}) -> plain_state:set_in(shapes, Variable, Elements);
known_shape(_, _) -> ok.

%% @doc Whether a pattern and guard of the profile decide this clause.
-spec is_plain(plain_tree:clause(), environment()) -> boolean().
is_plain({Patterns, Guard, Body}, Env) ->
    Saved = {plain_state:get(names), plain_state:get(shapes)},
    Answer = try
        {_, _, _, InGuard} = patterns(Patterns, Env, [], {Guard, Body}),
        plain_guard:guard(Guard, InGuard) =/= complex
    catch throw:complex -> false
    end,
    {Names, Shapes} = Saved,
    plain_state:put(names, Names),
    plain_state:put(shapes, Shapes),
    Answer.

%% @doc A pattern in which maps and binaries of parts are variables, with conditions {{Module, Function, Arguments}, Pattern}: the function
%% of the library answers {ok, Value}, and the value fits the pattern.
-spec with_conditions(plain_tree:tree()) -> {plain_tree:tree(), [{{module(), atom(), [plain_tree:tree()]}, plain_tree:tree()}]}.
with_conditions({pmap, Pairs}) ->
    Map = {v, {'M', plain_state:fresh()}},
    {Conditions, Deeper} = lists:unzip([begin {P, More} = with_conditions(Pattern), {{{maps, lookup, [Key, Map]}, P}, More} end || {Key, Pattern} <- Pairs]),
    Own = case Conditions of
        [] -> [{{maps, lookup, [{lit, '$ismap', 0}, Map]}, {v, {'_', plain_state:fresh()}}}];
        _ -> Conditions
    end,
    {Map, Own ++ lists:append(Deeper)};
with_conditions({pbits, Parts, Patterns}) ->
    Binary = {v, {'B', plain_state:fresh()}},
    Values = lists:foldr(fun(Pattern, Rest) -> {cons, Pattern, Rest} end, {lit, [], 0}, Patterns),
    {Binary, [{{pf_bits, match, [Binary, Parts]}, Values}]};
with_conditions({tup, Patterns}) ->
    {Written, Conditions} = lists:unzip([with_conditions(P) || P <- Patterns]),
    {{tup, Written}, lists:append(Conditions)};
with_conditions({cons, Head, Tail}) ->
    {H, First} = with_conditions(Head),
    {T, Second} = with_conditions(Tail),
    {{cons, H, T}, First ++ Second};
with_conditions({alias, Variable, Pattern}) ->
    {P, Conditions} = with_conditions(Pattern),
    {{alias, Variable, P}, Conditions};
with_conditions(Pattern) -> {Pattern, []}.

%% @doc The clauses but those that can't be chosen, since one before them takes all that they take.
-spec uncovered([Clause]) -> [Clause] when Clause :: {[plain_text:expression()], plain_text:guard(), plain_text:body()}.
uncovered([{Patterns, [], _} = First | Rest]) ->
    Bound = [V || {var, _} = V <- plain_text:variables(Patterns)],
    Linear = length(Bound) =:= length(lists:usort(Bound)),
    [First | uncovered([Clause || {Later, _, _} = Clause <- Rest, not (Linear andalso cover(Patterns, Later))])];
uncovered([First | Rest]) -> [First | uncovered(Rest)];
uncovered([]) -> [].

-spec cover([plain_text:expression()], [plain_text:expression()]) -> boolean().
cover(Earlier, Later) -> lists:all(fun({A, B}) -> covers(A, B) end, lists:zip(Earlier, Later)).

%% Whether a pattern takes all that another takes.
-spec covers(plain_text:expression(), plain_text:expression()) -> boolean().
covers({var, _}, _) -> true;
covers({cons, H, T}, {cons, H2, T2}) -> covers(H, H2) andalso covers(T, T2);
covers({tuple, A}, {tuple, B}) when length(A) =:= length(B) -> cover(A, B);
covers(Same, Same) -> true;
covers(_, _) -> false.
