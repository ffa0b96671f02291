%% @doc Core Erlang into the tree, in which each variable is bound once.
-module(plain_unique).
-export([function/1]).

-type names() :: #{term() => plain_tree:tree()}.
%% A part of a binary.
-type segment() :: {b | t | r | u, cerl:cerl()} | {n, 0..3, cerl:cerl(), cerl:cerl(), pos_integer()} | {p, cerl:cerl(), cerl:cerl(), pos_integer()}.

%% @doc The tree of a function of a module.
-spec function(cerl:cerl()) -> plain_tree:tree().
function(Core) -> tree(Core, #{}).

-spec line_of(cerl:cerl()) -> plain_tree:line().
line_of(Core) ->
    case line_known(Core) of
        0 -> plain_state:get(line);
        Line -> Line
    end.

%% The line that Core has, or 0.
-spec line_known(cerl:cerl()) -> plain_tree:line().
line_known(Core) ->
    Annotations = cerl:get_ann(Core),
    case [L || L <- Annotations, is_integer(L)] ++ [L || {L, _} <- Annotations, is_integer(L)] of
        [Line | _] -> Line;
        [] -> 0
    end.

-spec bind([cerl:cerl()], names()) -> {[plain_tree:variable()], names()}.
bind(Variables, Names) ->
    lists:mapfoldl(fun(Variable, Known) ->
        Name = cerl:var_name(Variable),
        Bound = {v, {Name, plain_state:fresh()}},
        {Bound, Known#{Name => Bound}}
    end, Names, Variables).

-spec trees([cerl:cerl()], names()) -> [plain_tree:tree()].
trees(Cores, Names) -> [tree(Core, Names) || Core <- Cores].

-spec tree(cerl:cerl(), names()) -> plain_tree:tree().
tree(Core, Names) ->
    Line = line_of(Core),
    plain_state:put(line, Line),
    tree(cerl:type(Core), Core, Names, Line).

-spec tree(atom(), cerl:cerl(), names(), plain_tree:line()) -> plain_tree:tree().
tree(var, Core, Names, _) ->
    case cerl:var_name(Core) of
        {Function, Arity} -> maps:get({Function, Arity}, Names, {fref, Function, Arity});
        Name -> maps:get(Name, Names)
    end;
tree(literal, Core, _, Line) -> {lit, cerl:concrete(Core), Line};
tree(tuple, Core, Names, _) -> {tup, trees(cerl:tuple_es(Core), Names)};
tree(cons, Core, Names, _) -> {cons, tree(cerl:cons_hd(Core), Names), tree(cerl:cons_tl(Core), Names)};
tree(values, Core, Names, _) -> {vals, trees(cerl:values_es(Core), Names)};
tree('let', Core, Names, _) ->
    Value = tree(cerl:let_arg(Core), Names),
    {Variables, Inside} = bind(cerl:let_vars(Core), Names),
    {'let', Variables, Value, tree(cerl:let_body(Core), Inside)};
tree(seq, Core, Names, _) -> {'let', [], tree(cerl:seq_arg(Core), Names), tree(cerl:seq_body(Core), Names)};
tree('case', Core, Names, Line) ->
    Subject = cerl:case_arg(Core),
    Subjects = case cerl:is_c_values(Subject) of true -> cerl:values_es(Subject); false -> [Subject] end,
    {'case', trees(Subjects, Names), [clause(C, Names) || C <- cerl:case_clauses(Core)], Line};
tree('fun', Core, Names, Line) ->
    {Variables, Inside} = bind(cerl:fun_vars(Core), Names),
    Identity = plain_state:fresh(),
    case lists:keyfind(id, 1, cerl:get_ann(Core)) of
        {id, {_, _, Name}} -> plain_state:set_in(fun_names, Identity, Name);
        false -> ok
    end,
    {fn, Identity, Variables, tree(cerl:fun_body(Core), Inside), Line};
tree(letrec, Core, Names, Line) -> letrec(cerl:letrec_defs(Core), cerl:letrec_body(Core), Names, Line);
tree(apply, Core, Names, Line) -> {apply, tree(cerl:apply_op(Core), Names), trees(cerl:apply_args(Core), Names), Line};
tree(call, Core, Names, Line) -> call(Core, Names, Line);
tree(primop, Core, Names, Line) -> {primop, cerl:concrete(cerl:primop_name(Core)), trees(cerl:primop_args(Core), Names), Line};
tree('try', Core, Names, _) ->
    Body = tree(cerl:try_arg(Core), Names),
    {Variables, Inside} = bind(cerl:try_vars(Core), Names),
    {Caught, Handling} = bind(cerl:try_evars(Core), Names),
    {'try', Body, Variables, tree(cerl:try_body(Core), Inside), Caught, tree(cerl:try_handler(Core), Handling)};
tree('catch', Core, Names, _) -> {'catch', tree(cerl:catch_body(Core), Names)};
tree(map, Core, Names, Line) ->
    Pair = fun(P) -> {cerl:concrete(cerl:map_pair_op(P)), tree(cerl:map_pair_key(P), Names), tree(cerl:map_pair_val(P), Names)} end,
    {map, tree(cerl:map_arg(Core), Names), [Pair(P) || P <- cerl:map_es(Core)], Line};
tree(binary, Core, Names, Line) -> binary(Core, Names, Line);
tree(Type, _, _, Line) -> plain_refusal:refuse(Line, "a ~w has no translation; write it by other constructs", [Type]).

%% A call of another module. The question of a logger macro, whether it is to log, is answered here: no.
-spec call(cerl:cerl(), names(), plain_tree:line()) -> plain_tree:tree().
call(Core, Names, Line) ->
    Module = cerl:call_module(Core),
    Name = cerl:call_name(Core),
    case {literal(Module), literal(Name)} of
        {logger, allow} -> {lit, false, Line};
        _ -> {call, tree(Module, Names), tree(Name, Names), trees(cerl:call_args(Core), Names), Line}
    end.

-spec literal(cerl:cerl()) -> term().
literal(Core) -> cerl:type(Core) =:= literal andalso cerl:concrete(Core).

%% Binaries: those that are known whole, those of bytes and whole binaries, and those of other parts.
-spec binary(cerl:cerl(), names(), plain_tree:line()) -> plain_tree:tree().
binary(Core, Names, Line) ->
    case {whole(Core), segments(Core)} of
        {{ok, Binary}, _} -> {lit, Binary, Line};
        {no, no} -> {lit, refused_binary(Line), Line};
        {no, Segments} ->
            plain_refusal:note_once(binaries, "a binary is a list of its bytes here, with a tag; each byte is a node of the 4,096 that a value may have"),
            List = lists:foldr(fun(Segment, Rest) -> {cons, built(Segment, Names, Line), Rest} end, {lit, [], Line}, Segments),
            {Module, Build} = case lists:all(fun is_bytes/1, Segments) of true -> {erlang, bin_build}; false -> {pf_bits, build} end,
            {call, {lit, Module, Line}, {lit, Build, Line}, [List], Line}
    end.

-spec is_bytes(segment()) -> boolean().
is_bytes({Kind, _}) -> Kind =/= u;
is_bytes(_) -> false.

%% A part as the library builds it.
-spec built(segment(), names(), plain_tree:line()) -> plain_tree:tree().
built({r, Value}, Names, Line) -> built({t, Value}, Names, Line);
built({Kind, Value}, Names, Line) -> {tup, [{lit, Kind, Line}, tree(Value, Names)]};
built({n, Code, Value, Size, Unit}, Names, Line) ->
    {tup, [{lit, n, Line}, {lit, Code band 2, Line}, tree(Value, Names), tree(Size, Names), {lit, Unit, Line}]};
built({p, Value, Size, Unit}, Names, Line) -> {tup, [{lit, p, Line}, tree(Value, Names), tree(Size, Names), {lit, Unit, Line}]}.

-spec refused_binary(plain_tree:line()) -> tuple().
refused_binary(Line) -> {'$refused', Line, "a float or a character of UTF-16 or UTF-32 in a binary is not translated; take integers, or utf8"}.

-spec whole(cerl:cerl()) -> {ok, binary()} | no.
whole(Core) ->
    Bits = fun(S) -> cerl:concrete(cerl:bitstr_size(S)) * cerl:concrete(cerl:bitstr_unit(S)) end,
    Number = fun(S) -> integer = cerl:concrete(cerl:bitstr_type(S)), cerl:concrete(cerl:bitstr_val(S)) end,
    try << <<(Number(S)):(Bits(S))>> || S <- cerl:binary_segments(Core), big(S) >> of
        Binary when is_binary(Binary) -> {ok, Binary};
        _ -> no
    catch _:_ -> no
    end.

-spec big(cerl:cerl()) -> true.
big(S) -> true = lists:member(big, cerl:concrete(cerl:bitstr_flags(S))).

-spec segments(cerl:cerl()) -> [segment()] | no.
segments(Core) ->
    Segments = [segment(S) || S <- cerl:binary_segments(Core)],
    case lists:member(no, Segments) of
        true -> no;
        false -> lists:append(Segments)
    end.

%% A segment: as bytes (b), as a whole binary (t), as the rest of bits (r), or as an integer (n), a binary of a size (p) or a character (u). The
%% code of an integer has 1 for a sign and 2 for its low byte first.
-spec segment(cerl:cerl()) -> [segment()] | no.
segment(S) ->
    Value = cerl:bitstr_val(S),
    Size = cerl:bitstr_size(S),
    Unit = literal(cerl:bitstr_unit(S)),
    Flags = literal(cerl:bitstr_flags(S)),
    Code = length([x || lists:member(signed, Flags)]) + 2 * length([x || not lists:member(big, Flags)]),
    case {literal(cerl:bitstr_type(S)), literal(Size), Unit, cerl:type(Value)} of
        {integer, Bits, 1, literal} when is_integer(Bits), Bits rem 8 =:= 0, Code < 2 -> [{b, cerl:abstract(X)} || <<X>> <= <<(cerl:concrete(Value)):Bits>>];
        {integer, 8, 1, _} when Code =:= 0 -> [{b, Value}];
        {integer, _, _, _} -> [{n, Code, Value, Size, Unit} || sized(Size)];
        {binary, all, 8, _} -> [{t, Value}];
        {binary, all, 1, _} -> [{r, Value}];
        {binary, _, _, _} -> [{p, Value, Size, Unit} || sized(Size)];
        {utf8, _, _, literal} -> [{b, cerl:abstract(X)} || <<X>> <= <<(cerl:concrete(Value))/utf8>>];
        {utf8, _, _, _} -> [{u, Value}];
        _ -> no
    end.

%% A size is a number or a variable.
-spec sized(cerl:cerl()) -> true.
sized(Size) ->
    case cerl:type(Size) =:= var orelse literal(Size) of
        true -> true;
        Number when is_integer(Number) -> true;
        _ -> plain_refusal:refuse("the size of a part of a binary is a number or a variable; bind it before", [])
    end.

-spec clause(cerl:cerl(), names()) -> plain_tree:clause().
clause(Core, Names) ->
    {_, Inside} = bind(cerl:clause_vars(Core), Names),
    {[pattern(P, Inside) || P <- cerl:clause_pats(Core)], tree(cerl:clause_guard(Core), Inside), tree(cerl:clause_body(Core), Inside)}.

-spec pattern(cerl:cerl(), names()) -> plain_tree:tree().
pattern(Core, Names) ->
    case cerl:type(Core) of
        var -> maps:get(cerl:var_name(Core), Names);
        literal -> {lit, cerl:concrete(Core), line_of(Core)};
        tuple -> {tup, [pattern(P, Names) || P <- cerl:tuple_es(Core)]};
        cons -> {cons, pattern(cerl:cons_hd(Core), Names), pattern(cerl:cons_tl(Core), Names)};
        alias -> {alias, maps:get(cerl:var_name(cerl:alias_var(Core)), Names), pattern(cerl:alias_pat(Core), Names)};
        map -> {pmap, [{tree(cerl:map_pair_key(P), Names), pattern(cerl:map_pair_val(P), Names)} || P <- cerl:map_es(Core)]};
        binary -> binary_pattern(Core, Names)
    end.

-spec binary_pattern(cerl:cerl(), names()) -> plain_tree:tree().
binary_pattern(Core, Names) ->
    Line = plain_state:get(line),
    case {whole(Core), segments(Core)} of
        {{ok, Binary}, _} -> {lit, Binary, Line};
        {no, no} -> {lit, refused_binary(Line), Line};
        {no, Segments} ->
            {Bytes, Rest} = lists:splitwith(fun(Segment) -> element(1, Segment) =:= b end, Segments),
            Patterns = [pattern(B, Names) || {b, B} <- Bytes],
            case Rest of
                [] -> {pbin, Patterns, {lit, [], 0}};
                [{t, Tail}] -> {pbin, Patterns, pattern(Tail, Names)};
                _ -> parts(Segments, Names)
            end
    end.

%% A binary of other parts: what the library is to take of it, and the pattern of each part.
-spec parts([segment()], names()) -> plain_tree:tree().
parts(Segments, Names) ->
    Patterns = [pattern(value_of(Segment), Names) || Segment <- Segments],
    Parts = [part(Segment, Patterns, Names) || Segment <- Segments],
    {pbits, lists:foldr(fun(Part, Rest) -> {cons, Part, Rest} end, {lit, [], 0}, Parts), Patterns}.

-spec value_of(segment()) -> cerl:cerl().
value_of({n, _, Value, _, _}) -> Value;
value_of(Segment) -> element(2, Segment).

-spec part(segment(), [plain_tree:tree()], names()) -> plain_tree:tree().
part({b, _}, _, _) -> of_code(0, {lit, 8, 0});
part({n, Code, _, Size, Unit}, Patterns, Names) -> of_code(Code, bits(Size, Unit, Patterns, Names));
part({p, _, Size, Unit}, Patterns, Names) -> of_code(4, bits(Size, Unit, Patterns, Names));
part({t, _}, _, _) -> of_code(5, {lit, 0, 0});
part({u, _}, _, _) -> of_code(6, {lit, 0, 0});
part({r, _}, _, _) -> of_code(7, {lit, 0, 0}).

-spec of_code(0..7, plain_tree:tree()) -> plain_tree:tree().
of_code(Code, Bits) -> {tup, [{lit, Code, 0}, Bits]}.

%% The bits of a part: a number, or the value of a part before, or of a variable that is bound outside.
-spec bits(cerl:cerl(), pos_integer(), [plain_tree:tree()], names()) -> plain_tree:tree().
bits(Size, Unit, Patterns, Names) ->
    case tree(Size, Names) of
        {lit, Number, _} -> {lit, Number * Unit, 0};
        Variable ->
            case [I || {I, Pattern} <- lists:zip(lists:seq(1, length(Patterns)), Patterns), Pattern =:= Variable] of
                [I | _] -> {tup, [{lit, I, 0}, {lit, Unit, 0}]};
                [] -> {tup, [Variable, {lit, Unit, 0}, {lit, 0, 0}]}
            end
    end.

-spec letrec([{cerl:cerl(), cerl:cerl()}], cerl:cerl(), names(), plain_tree:line()) -> plain_tree:tree().
letrec([{Name, Function}] = Definitions, Body, Names, Line) ->
    case cerl:var_name(Name) of
        {Atom, 0} ->
            case atom_to_list(Atom) of
                "recv$" ++ _ -> receive_(Function, Names, Line);
                _ -> functions(Definitions, Body, Names)
            end;
        _ -> functions(Definitions, Body, Names)
    end;
letrec(Definitions, Body, Names, _) -> functions(Definitions, Body, Names).

-spec functions([{cerl:cerl(), cerl:cerl()}], cerl:cerl(), names()) -> plain_tree:tree().
functions(Definitions, Body, Names) ->
    Inside = lists:foldl(fun({Name, _}, Known) ->
        {_, Arity} = Key = cerl:var_name(Name),
        Known#{Key => {lref, {plain_state:fresh(), Arity}}}
    end, Names, Definitions),
    Define = fun({Name, Function}) ->
        {lref, Identity} = maps:get(cerl:var_name(Name), Inside),
        {fn, Inner, Variables, FunctionBody, Line} = tree(Function, Inside),
        case plain_state:find_in(fun_names, Inner) of
            {ok, Compiled} -> plain_state:set_in(fun_names, Identity, {lifted, by_itself(Compiled, cerl:var_name(Name))});
            error -> ok
        end,
        {Identity, Variables, FunctionBody, Line}
    end,
    {letrec, [Define(D) || D <- Definitions], tree(Body, Inside)}.

%% How the name of a fun begins that has a name for itself: as `-f/1-fun-0-', with that name in the place of `fun'; the
%% compiler numbers it later.
-spec by_itself(atom(), {atom(), arity()}) -> string().
by_itself(Compiled, {Name, Arity}) ->
    [Outer, _] = string:split(atom_to_list(Compiled), "fun-", trailing),
    lists:concat([Outer, Name, "/", Arity, "-"]).

%% A receive is a loop over the mailbox in Core; here it is one construct again.
-spec receive_(cerl:cerl(), names(), plain_tree:line()) -> plain_tree:tree().
receive_(Function, Names, Line) ->
    Let = cerl:fun_body(Function),
    case cerl:concrete(cerl:primop_name(cerl:let_arg(Let))) of
        recv_peek_message -> peeking(Let, Names, Line);
        recv_wait_timeout ->
            {Time, Action} = waiting(Let, Names),
            Own = case line_known(hd(cerl:primop_args(cerl:let_arg(Let)))) of 0 -> Line; Known -> Known end,
            {recv, [], Time, Action, Own}
    end.

-spec peeking(cerl:cerl(), names(), plain_tree:line()) -> plain_tree:tree().
peeking(Let, Names, Line) ->
    [_, Message] = cerl:let_vars(Let),
    {_, Inside} = bind([Message], Names),
    [Found, Empty] = cerl:case_clauses(cerl:let_body(Let)),
    Taking = cerl:clause_body(Found),
    Own = case line_known(Taking) of 0 -> Line; Known -> Known end,
    Clauses = cerl:case_clauses(Taking),
    First = [taken(clause(C, Inside)) || C <- lists:droplast(Clauses)],
    All = case clause(lists:last(Clauses), Inside) of
        {_, _, {'let', [], {primop, recv_next, _, _}, _}} -> First;
        Last -> First ++ [taken(Last)]
    end,
    {Time, Action} = waiting(cerl:clause_body(Empty), Names),
    {recv, All, Time, Action, Own}.

-spec waiting(cerl:cerl(), names()) -> {plain_tree:tree(), plain_tree:tree()}.
waiting(Let, Names) ->
    Time = tree(hd(cerl:primop_args(cerl:let_arg(Let))), Names),
    [Expired | _] = cerl:case_clauses(cerl:let_body(Let)),
    {Time, tree(cerl:clause_body(Expired), Names)}.

-spec taken(plain_tree:clause()) -> plain_tree:clause().
taken({Patterns, Guard, Body}) -> {Patterns, Guard, without_removal(Body)}.

-spec without_removal(plain_tree:tree()) -> plain_tree:tree().
without_removal({'let', [], {primop, remove_message, _, _}, Body}) -> Body;
without_removal({'let', Variables, Value, Body}) -> {'let', Variables, Value, without_removal(Body)};
without_removal(Body) -> Body.
