%% @doc Clauses that no value can come to are left out: those whose pattern has an atom that nothing in the program makes. What is made is
%% found pass by pass, from what the roots make on; the last pass finds nothing new, so that each clause that it left out is one that no run takes.
-module(plain_prune).
-export([tree/1, given/0, after_pass/1]).

-type tree() :: plain_tree:tree().

%% @doc A tree without such clauses.
-spec tree(tree()) -> tree().
tree(Tree) ->
    Started = started(Tree),
    case plain_state:get(known) of
        all -> Started;
        Known -> pruned(Started, maps:merge(Known, plain_state:get(made)))
    end.

%% A fun that is bound and used once, to start a process, is written in that call: so no other call can mean it.
-spec started(term()) -> term().
started({lit, _, _} = Literal) -> Literal;
started({'let', [Variable], {fn, Identity, [], Inner, Line}, Body}) ->
    Fun = {fn, Identity, [], started(Inner), Line},
    Rest = started(Body),
    case occurs(Variable, Rest) =:= 1 andalso placed(Variable, Fun, Rest) of
        {yes, Placed} -> Placed;
        _ -> {'let', [Variable], Fun, Rest}
    end;
started(Tree) when is_tuple(Tree) -> list_to_tuple(started(tuple_to_list(Tree)));
started([Head | Tail]) -> [started(Head) | started(Tail)];
started(Other) -> Other.

-spec occurs(tree(), term()) -> non_neg_integer().
occurs(Variable, Variable) -> 1;
occurs(_, {lit, _, _}) -> 0;
occurs(Variable, Tree) when is_tuple(Tree) -> occurs(Variable, tuple_to_list(Tree));
occurs(Variable, [Head | Tail]) -> occurs(Variable, Head) + occurs(Variable, Tail);
occurs(_, _) -> 0.

-spec placed(tree(), tree(), term()) -> {yes, term()} | no.
placed(Variable, Fun, {call, {lit, erlang, _} = Module, {lit, Name, _} = Function, [Variable | Options], Line})
  when Name =:= spawn; Name =:= spawn_link; Name =:= spawn_monitor; Name =:= spawn_opt ->
    {yes, {call, Module, Function, [Fun | Options], Line}};
placed(_, _, {lit, _, _}) -> no;
placed(Variable, Fun, Tree) when is_tuple(Tree) ->
    case placed(Variable, Fun, tuple_to_list(Tree)) of
        {yes, Parts} -> {yes, list_to_tuple(Parts)};
        no -> no
    end;
placed(Variable, Fun, [Head | Tail]) ->
    case placed(Variable, Fun, Head) of
        {yes, Placed} -> {yes, [Placed | Tail]};
        no ->
            case placed(Variable, Fun, Tail) of
                {yes, Placed} -> {yes, [Head | Placed]};
                no -> no
            end
    end;
placed(_, _, _) -> no.

-spec pruned(term(), #{atom() => true}) -> term().
pruned({lit, _, _} = Literal, _) -> Literal;
pruned({'case', Subjects, Clauses, Line}, Known) -> {'case', pruned(Subjects, Known), possible(Clauses, Known), Line};
pruned({recv, Clauses, Time, Action, Line}, Known) -> {recv, possible(Clauses, Known), pruned(Time, Known), pruned(Action, Known), Line};
pruned(Tree, Known) when is_tuple(Tree) -> list_to_tuple(pruned(tuple_to_list(Tree), Known));
pruned([Head | Tail], Known) -> [pruned(Head, Known) | pruned(Tail, Known)];
pruned(Other, _) -> Other.

%% The clauses that may be taken; one at least stays.
-spec possible([plain_tree:clause()], #{atom() => true}) -> [plain_tree:clause()].
possible([], _) -> [];
possible(Clauses, Known) ->
    Taken = case [Clause || {Patterns, _, _} = Clause <- Clauses, may_be(Patterns, Known)] of
        [] -> [lists:last(Clauses)];
        Some -> Some
    end,
    [{Patterns, pruned(Guard, Known), pruned(Body, Known)} || {Patterns, Guard, Body} <- Taken].

-spec may_be(term(), #{atom() => true}) -> boolean().
may_be({lit, Term, _}, Known) -> made(Term, Known);
may_be({pmap, Pairs}, Known) -> lists:all(fun({Key, Pattern}) -> may_be(Key, Known) andalso may_be(Pattern, Known) end, Pairs);
may_be({v, _}, _) -> true;
may_be(Pattern, Known) when is_tuple(Pattern) -> may_be(tuple_to_list(Pattern), Known);
may_be([Head | Tail], Known) -> may_be(Head, Known) andalso may_be(Tail, Known);
may_be(_, _) -> true.

-spec made(term(), #{atom() => true}) -> boolean().
made(Atom, Known) when is_atom(Atom) -> maps:is_key(Atom, Known);
made([Head | Tail], Known) -> made(Head, Known) andalso made(Tail, Known);
made(Tuple, Known) when is_tuple(Tuple), element(1, Tuple) =/= '$refused' -> made(tuple_to_list(Tuple), Known);
made(Map, Known) when is_map(Map) -> made(maps:to_list(Map), Known);
made(_, _) -> true.

%% @doc What the next pass knows to be made: all where texts become atoms.
-spec after_pass(#{atom() => true} | all) -> #{atom() => true} | all.
after_pass(Known) ->
    Texts = lists:any(fun({atoms, list_to_atom, _}) -> true; (_) -> false end, plain_state:keys(prelude)),
    case Known =:= all orelse Texts of
        true -> all;
        false -> maps:merge(Known, plain_state:get(made))
    end.

%% @doc The atoms that runs and the parts of the text that aren't translated make.
-spec given() -> #{atom() => true}.
given() ->
    maps:from_list([{Atom, true} || Atom <-
        [true, false, undefined, ok, normal, noproc, kill, killed, error, exit, throw, 'EXIT', 'DOWN', process, badarg, badarith, undef, system_limit,
         function_clause, case_clause, if_clause, try_clause, badmatch, badfun, badarity, badkey, badmap, nocatch, refused, 'after', arm, cancel,
         'nonode@nohost', infinity, fail, m, '$ismap', '#map', '#bin', '#fun', limit, shutdown]]).
