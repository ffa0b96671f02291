%% @doc Simple values in the text: literals, variables, tuples, lists, and funs, which are tuples with the name of a function.
-module(plain_value).
-export([value/2, values/2, literal/2, pattern/2, remote_fun/3, fun_names/0, external_fun/3, wrapper/2, lift/6, lifted_name/1]).

-type environment() :: plain_tree:environment().

-spec value(plain_tree:tree(), environment()) -> plain_text:expression().
value({v, _} = Variable, Env) -> maps:get(Variable, Env);
value({lit, Term, Line}, _) -> literal(Term, Line);
value({tup, [{lit, Tag, Line} | Elements]}, Env) when is_atom(Tag) -> {tuple, [tag(Tag, Line) | values(Elements, Env)]};
value({tup, Elements}, Env) -> {tuple, values(Elements, Env)};
value({vals, Elements}, Env) -> {tuple, values(Elements, Env)};
value({cons, Head, Tail}, Env) -> {cons, value(Head, Env), value(Tail, Env)};
value({fn, Identity, Variables, Body, Line}, Env) ->
    Name = lifted_name({fn, Identity}),
    Free = lift(Name, Variables, Body, Line, Env, Body),
    closure(Name, length(Variables), Free, Env);
value({fref, Function, Arity}, _) -> remote_fun(plain_state:get(module), Function, Arity);
value({lref, {_, Arity}} = Function, Env) ->
    {Name, Free} = maps:get(Function, Env),
    closure(Name, Arity, Free, Env).

-spec values([plain_tree:tree()], environment()) -> [plain_text:expression()].
values(Trees, Env) -> [value(Tree, Env) || Tree <- Trees].

-spec closure(atom(), arity(), [plain_tree:tree()], environment()) -> plain_text:expression().
closure(Name, Arity, Free, Env) ->
    plain_state:set_in(funs, Name, Arity),
    {tuple, [{atom, '#fun'}, {int, Arity}, {atom, Name} | values(Free, Env)]}.

%% @doc `fun M:F/A'.
-spec remote_fun(module(), atom(), arity()) -> plain_text:expression().
remote_fun(Module, Function, Arity) ->
    case plain_modules:find(Module, Function, Arity) of
        none when Module =:= erlang ->
            Variables = [{v, {'A', plain_state:fresh()}} || _ <- lists:seq(1, Arity)],
            value({fn, {erlang, Function, Arity}, Variables, {call, {lit, erlang, 0}, {lit, Function, 0}, Variables, 0}, 0}, #{});
        none -> plain_refusal:refuse("fun ~w:~w/~w: no such function is known; name its file as one more", [Module, Function, Arity]);
        _ ->
            Key = {Module, Function, Arity},
            plain_state:set_in(funs, Key, Arity),
            {tuple, [{atom, '#fun'}, {int, Arity}, {atom, plain_reach:tag(Key)}]}
    end.

%% @doc `fun M:F/A' as a source has it. Of a module that was given only what it exports is called so.
-spec external_fun(module(), atom(), arity()) -> plain_text:expression().
external_fun(Module, Function, Arity) ->
    case plain_modules:hidden(Module, Function, Arity) of
        true ->
            Variables = [{v, {'A', plain_state:fresh()}} || _ <- lists:seq(1, Arity)],
            value({fn, {Module, Function, Arity}, Variables, {call, {lit, Module, 0}, {lit, Function, 0}, Variables, 0}, 0}, #{});
        false -> remote_fun(Module, Function, Arity)
    end.

%% @doc A function of the text that does what a function of erlang does.
-spec wrapper(atom(), arity()) -> atom().
wrapper(Function, Arity) ->
    Name = lifted_name({fn, {erlang, Function, Arity}}),
    Variables = [{v, {'A', plain_state:fresh()}} || _ <- lists:seq(1, Arity)],
    Body = {call, {lit, erlang, 0}, {lit, Function, 0}, Variables, 0},
    _ = lift(Name, Variables, Body, 0, #{}, Body),
    Name.

%% @doc The name of the function that a fun becomes: that of the function around it, and a number.
-spec lifted_name(term()) -> atom().
lifted_name(Identity) ->
    case plain_state:find_in(lifted_names, Identity) of
        {ok, Name} -> Name;
        error ->
            Number = map_size(plain_state:get(lifted_names)) + 1,
            Name = case plain_state:get(short) of
                true -> plain_reach:short_name({'fun', Number});
                false -> list_to_atom(atom_to_list(plain_state:get(base)) ++ "@" ++ integer_to_list(Number))
            end,
            plain_state:set_in(lifted_names, Identity, Name),
            Name
    end.

%% @doc The funs without arguments that the sources make, and what each is by the names of the compiler.
-spec fun_names() -> [{atom() | {module(), atom(), arity()}, {module(), atom(), arity()}}].
fun_names() ->
    Compiled = maps:from_list([{Name, case Key of {fn, Identity} -> Identity; _ -> Key end}
                               || {Key, Name} <- maps:to_list(plain_state:get(lifted_names))]),
    lists:append([named(Key, Compiled) || {Key, 0} <- lists:sort(maps:to_list(plain_state:get(funs)))]).

-spec named(atom() | {module(), atom(), arity()}, map()) -> [{atom() | {module(), atom(), arity()}, {module(), atom(), arity()}}].
named({_, _, _} = Key, _) -> [{Key, Key}];
named(Key, Compiled) ->
    {ok, #{where := #{kind := Kind, module := Module, file := File}}} = plain_state:find_in(lifted, Key),
    case maps:find(Key, Compiled) of
        {ok, {_, _, _} = Named} -> [{Key, Named}];
        {ok, Identity} when Kind =:= user ->
            case plain_state:find_in(fun_names, Identity) of
                {ok, {lifted, _} = Begun} -> [{Key, {Module, Name, 0}} || Name <- by_itself(Identity, Begun, File)];
                {ok, Name} -> [{Key, {Module, Name, 0}}];
                error -> []
            end;
        _ -> []
    end.

%% The name of a fun that calls itself: among those that begin so, in the order of the source.
-spec by_itself(term(), {lifted, string()}, file:filename()) -> [atom()].
by_itself(Identity, {lifted, Begun} = Same, File) ->
    Identities = lists:sort([Other || {Other, Name} <- maps:to_list(plain_state:get(fun_names)), Name =:= Same]),
    Names = [Name || Name <- plain_modules:compiled(File), lists:prefix(Begun, atom_to_list(Name))],
    Number = fun(Name) -> list_to_integer(lists:droplast(lists:nthtail(length(Begun), atom_to_list(Name)))) end,
    Sorted = [Name || {_, Name} <- lists:sort([{Number(Name), Name} || Name <- Names])],
    case length(Identities) =:= length(Sorted) of
        true -> [Name || {Other, Name} <- lists:zip(Identities, Sorted), Other =:= Identity];
        false -> []
    end.

%% @doc Keeps the body of a fun for later; its free variables in a fixed order.
-spec lift(atom(), [plain_tree:variable()], plain_tree:tree(), plain_tree:line(), environment(), term()) -> [plain_tree:tree()].
lift(Name, Variables, Body, Line, Env, Whole) ->
    case plain_state:find_in(lifted, Name) of
        {ok, #{free := Free}} -> Free;
        error ->
            Free = plain_tree:free(Whole, Env),
            Local = maps:filter(fun({lref, _}, _) -> true; (_, _) -> false end, Env),
            Where = maps:from_list([{Key, plain_state:get(Key)} || Key <- [file, module, kind, base, function]]),
            plain_state:set_in(lifted, Name, #{free => Free, variables => Variables, body => Body, line => Line, env => Local, where => Where}),
            Free
    end.

%% @doc A term in a pattern: its atoms come from elsewhere.
-spec pattern(term(), plain_tree:line()) -> plain_text:expression().
pattern(Term, Line) ->
    {Values, Tags, Made} = {plain_state:get(values), plain_state:get(tags), plain_state:get(made)},
    Written = literal(Term, Line),
    plain_state:put(values, Values),
    plain_state:put(tags, Tags),
    plain_state:put(made, Made),
    Written.

%% @doc A term in the source.
-spec literal(term(), plain_tree:line()) -> plain_text:expression().
literal({'$refused', Line, Sentence}, _) -> plain_refusal:refuse(Line, "~ts", [Sentence]);
literal(Integer, Line) when is_integer(Integer), Integer > 16#7fffffffffffffff orelse Integer < -16#8000000000000000 ->
    refused(Line, "the integer ~w has more than 64 bits; count in a larger unit", [Integer]);
literal(Integer, _) when is_integer(Integer) -> {int, Integer};
literal(Atom, Line) when is_atom(Atom) -> atom(Atom, Line);
literal([], _) -> nil;
literal([_ | Tail], Line) when not is_list(Tail) -> refused(Line, "the profile has no improper lists; take a tuple {Head, Tail}", []);
literal(List, Line) when length(List) > 4095 ->
    Sentence = "a list of ~w elements has over 4,096 nodes, the most that a value may have; take less of it",
    refused(Line, Sentence, [length(List)]);
literal([Head | Tail], Line) -> {cons, literal(Head, Line), literal(Tail, Line)};
literal(Tuple, Line) when is_tuple(Tuple), tuple_size(Tuple) > 0, is_atom(element(1, Tuple)) ->
    [Tag | Elements] = tuple_to_list(Tuple),
    {tuple, [tag(Tag, Line) | [literal(X, Line) || X <- Elements]]};
literal(Tuple, Line) when is_tuple(Tuple) -> {tuple, [literal(X, Line) || X <- tuple_to_list(Tuple)]};
literal(Binary, Line) when is_binary(Binary) -> {tuple, [{atom, '#bin'}, literal(binary_to_list(Binary), Line)]};
literal(Map, Line) when is_map(Map) ->
    Pairs = lists:sort([{encoded(Key), Pair} || {Key, _} = Pair <- maps:to_list(Map)]),
    {tuple, [{atom, '#map'}, literal([Pair || {_, Pair} <- Pairs], Line)]};
literal(Fun, Line) when is_function(Fun) ->
    [Module, Name, Arity] = [element(2, erlang:fun_info(Fun, Item)) || Item <- [module, name, arity]],
    plain_state:put(line, Line),
    remote_fun(Module, Name, Arity);
literal(Float, Line) when is_float(Float) ->
    case plain_state:get(kind) of
        user ->
            plain_state:set_in(made, '#float', true),
            {tuple, [{atom, '#float'}, {int, plain_float:key(Float)}]};
        _ -> refused(Line, "the float ~w in the library; count in integers", [Float])
    end;
literal(Term, Line) -> refused(Line, "the profile has no value ~p; take a tuple or a list", [Term]).

%% A term as the profile has it, by which keys are ordered.
-spec encoded(term()) -> term().
encoded(Float) when is_float(Float) -> {'#float', plain_float:key(Float)};
encoded(Binary) when is_binary(Binary) -> {'#bin', binary_to_list(Binary)};
encoded(Map) when is_map(Map) -> {'#map', lists:sort([{encoded(Key), encoded(Value)} || {Key, Value} <- maps:to_list(Map)])};
encoded(Tuple) when is_tuple(Tuple) -> list_to_tuple(encoded(tuple_to_list(Tuple)));
encoded([Head | Tail]) -> [encoded(Head) | encoded(Tail)];
encoded(Term) -> Term.

%% A literal that is refused: the translation goes on after it, so that what else is refused is reported too. In the library it ends the function.
-spec refused(plain_tree:line(), io:format(), [term()]) -> plain_text:expression().
refused(Line, Format, Arguments) ->
    case plain_state:get(kind) of
        user ->
            plain_refusal:record(plain_state:get(file), Line, io_lib:format(Format, Arguments)),
            {atom, refused};
        _ -> plain_refusal:refuse(Line, Format, Arguments)
    end.

%% The first of a tuple: the tag of a message, or the module of a function, but hardly the name of one.
-spec tag(atom(), plain_tree:line()) -> plain_text:expression().
tag(Tag, Line) ->
    Before = plain_state:get(values),
    Written = literal(Tag, Line),
    case plain_state:get(values) of
        Before -> ok;
        _ ->
            plain_state:put(values, Before),
            plain_state:set_in(tags, Tag, true)
    end,
    Written.

%% The tags of maps, binaries, floats and funs stand in no program, so that no tuple of one can be taken for them.
-spec atom(atom(), plain_tree:line()) -> plain_text:expression().
atom(Atom, Line) when Atom =:= '#map'; Atom =:= '#bin'; Atom =:= '#fun'; Atom =:= '#float' ->
    case plain_state:get(kind) of
        lib ->
            Atom =:= '#float' andalso plain_state:set_in(made, Atom, true),
            {atom, Atom};
        _ -> refused(Line, "the atom ~p marks an encoding; rename it", [Atom])
    end;
atom(Atom, Line) ->
    plain_state:set_in(atoms, Atom, true),
    plain_state:set_in(made, Atom, true),
    plain_state:get(kind) =:= user andalso plain_state:set_in(values, Atom, true),
    Known = maps:get(Atom, plain_state:get(atom_places), []),
    Place = {user, plain_state:get(file), Line, plain_state:get(function)},
    case plain_state:get(kind) =:= user andalso Line > 0 andalso not lists:member(Place, Known) of
        true -> plain_state:set_in(atom_places, Atom, [Place | Known]);
        false -> ok
    end,
    {atom, Atom}.
