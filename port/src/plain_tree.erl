%% @doc The tree between Erlang's Core and the profile. Each variable is bound once in it.
-module(plain_tree).
-export([occurring/1, free/2, simple/1, is_true/1, mentions/2, renewed/1, wider/2, proper/1, line/1]).

-type line() :: non_neg_integer().
-type variable() :: {v, {atom() | integer(), term()}}.
-type clause() :: {[tree()], tree(), tree()}.
-type tree() ::
    variable() | {lit, term(), line()} | {tup, [tree()]} | {cons, tree(), tree()} | {vals, [tree()]}
  | {fref, atom(), arity()}                       % a function of the module
  | {lref, {term(), arity()}}                     % a function that a letrec binds
  | {fn, term(), [variable()], tree(), line()}
  | {'let', [variable()], tree(), tree()} | {letrec, [{term(), [variable()], tree(), line()}], tree()}
  | {'case', [tree()], [clause()], line()} | {apply, tree(), [tree()], line()} | {call, tree(), tree(), [tree()], line()}
  | {primop, atom(), [tree()], line()} | {'try', tree(), [variable()], tree(), [variable()], tree()} | {'catch', tree()}
  | {map, tree(), [{assoc | exact, tree(), tree()}], line()}
  | {recv, [clause()], tree(), tree(), line()}
  | {alias, variable(), tree()} | {pmap, [{tree(), tree()}]} | {pbin, [tree()], tree()}
  | {pbits, tree(), [tree()]}.                    % what the library is to take of a binary, and the pattern of each part
-type environment() :: #{tree() => term()}.
-export_type([tree/0, variable/0, clause/0, line/0, environment/0]).

%% @doc All variables and local functions that occur.
-spec occurring(term()) -> sets:set(tree()).
occurring(Tree) -> sets:from_list(occurring(Tree, []), [{version, 2}]).

-spec occurring(term(), [tree()]) -> [tree()].
occurring({lit, _, _}, Found) -> Found;
occurring({v, _} = Variable, Found) -> [Variable | Found];
occurring({lref, _} = Function, Found) -> [Function | Found];
occurring(Tree, Found) when is_tuple(Tree) -> occurring(tuple_to_list(Tree), Found);
occurring([Head | Tail], Found) -> occurring(Tail, occurring(Head, Found));
occurring(_, Found) -> Found.

%% @doc The variables of an environment that occur, in a fixed order; a local function has those of its own.
-spec free(term(), environment()) -> [tree()].
free(Tree, Env) ->
    Found = sets:to_list(occurring(Tree)),
    Own = [Variable || {v, _} = Variable <- Found, maps:is_key(Variable, Env)],
    Local = [element(2, maps:get(Function, Env)) || {lref, _} = Function <- Found, maps:is_key(Function, Env)],
    lists:usort(Own ++ lists:append(Local)).

%% @doc Whether a tree is a value as it is.
-spec simple(tree()) -> boolean().
simple({v, _}) -> true;
simple({lit, _, _}) -> true;
simple({tup, Elements}) -> lists:all(fun simple/1, Elements);
simple({cons, Head, Tail}) -> simple(Head) andalso simple(Tail);
simple({fn, _, _, _, _}) -> true;
simple({fref, _, _}) -> true;
simple({lref, _}) -> true;
simple({vals, Elements}) -> lists:all(fun simple/1, Elements);
simple(_) -> false.

-spec is_true(tree()) -> boolean().
is_true({lit, true, _}) -> true;
is_true(_) -> false.

%% @doc Whether an atom is somewhere a literal.
-spec mentions(atom(), term()) -> boolean().
mentions(Atom, {lit, Atom, _}) -> true;
mentions(Atom, Tree) when is_tuple(Tree) -> mentions(Atom, tuple_to_list(Tree));
mentions(Atom, [Head | Tail]) -> mentions(Atom, Head) orelse mentions(Atom, Tail);
mentions(_, _) -> false.

%% @doc A pattern with a new variable for each of its own.
-spec renewed(tree()) -> tree().
renewed({v, _}) -> {v, {0, plain_state:fresh()}};
renewed({alias, _, Pattern}) -> renewed(Pattern);
renewed({lit, _, _} = Literal) -> Literal;
renewed({tup, Patterns}) -> {tup, [renewed(P) || P <- Patterns]};
renewed({cons, Head, Tail}) -> {cons, renewed(Head), renewed(Tail)};
renewed({pbin, Bytes, Tail}) -> {pbin, [renewed(B) || B <- Bytes], renewed(Tail)}.

%% @doc Whether the first pattern surely fits all that the second fits.
-spec wider(tree(), tree()) -> boolean().
wider({v, _}, _) -> true;
wider({alias, _, Pattern}, Other) -> wider(Pattern, Other);
wider({lit, Value, _}, {lit, Value, _}) -> true;
wider({tup, Ps}, {tup, Qs}) when length(Ps) =:= length(Qs) -> lists:all(fun({P, Q}) -> wider(P, Q) end, lists:zip(Ps, Qs));
wider({cons, A, B}, {cons, C, D}) -> wider(A, C) andalso wider(B, D);
wider(_, _) -> false.

%% @doc The elements of a list whose length is seen.
-spec proper(tree()) -> {ok, [tree()]} | no.
proper({lit, List, Line}) when is_list(List) -> {ok, [{lit, X, Line} || X <- List]};
proper({cons, Head, Tail}) ->
    case proper(Tail) of
        {ok, Elements} -> {ok, [Head | Elements]};
        no -> no
    end;
proper(_) -> no.

%% @doc The first line that a tree is known to stand on, or 0.
-spec line(term()) -> line().
line({lit, _, Line}) -> Line;
line({call, _, _, _, Line}) when Line > 0 -> Line;
line({apply, _, _, Line}) when Line > 0 -> Line;
line(Tree) when is_tuple(Tree) -> line(tuple_to_list(Tree));
line([Head | Tail]) ->
    case line(Head) of
        0 -> line(Tail);
        Line -> Line
    end;
line(_) -> 0.
