%% @doc Guards, and the operators and tests that stand for themselves in guards and bodies.
-module(plain_guard).
-export([guard/2, pure/2, tagged/2]).

-type environment() :: plain_tree:environment().

%% @doc The guard as the profile has it, or `complex' where it has to be evaluated before.
-spec guard(plain_tree:tree(), environment()) -> {ok, plain_text:guard()} | complex.
guard(Guard, Env) ->
    try {ok, case Guard of {lit, true, _} -> []; _ -> alternatives(Guard, Env) end}
    catch throw:complex -> complex
    end.

-spec alternatives(plain_tree:tree(), environment()) -> plain_text:guard().
alternatives({'let', [Variable], Value, Body}, Env) -> alternatives(Body, Env#{Variable => {guard, Value, Env}});
alternatives({v, _} = Variable, Env) ->
    case maps:get(Variable, Env) of
        {guard, Value, Outer} -> alternatives(Value, Outer);
        Known -> [[Known]]
    end;
alternatives({'try', Body, _, _, _, _}, Env) -> alternatives(Body, Env);
alternatives({call, {lit, erlang, _}, {lit, 'or', _}, [A, B], _} = Guard, Env) ->
    case isolated(A, Env) andalso isolated(B, Env) of
        true -> alternatives(A, Env) ++ alternatives(B, Env);
        false -> [[test(Guard, Env)]]
    end;
alternatives({call, {lit, erlang, _}, {lit, 'and', _}, [A, B], _}, Env) ->
    case {alternatives(A, Env), alternatives(B, Env)} of
        {[First], [Second]} -> [First ++ Second];
        _ -> [[both(test(A, Env), test(B, Env))]]
    end;
alternatives(Guard, Env) -> [[test(Guard, Env)]].

%% Whether an error in one alternative leaves the others.
-spec isolated(plain_tree:tree(), environment()) -> boolean().
isolated({v, _} = Variable, Env) ->
    case maps:get(Variable, Env) of
        {guard, Value, Outer} -> isolated(Value, Outer);
        _ -> false
    end;
isolated({'try', _, _, _, _, _}, _) -> true;
isolated({call, {lit, erlang, _}, {lit, 'or', _}, [A, B], _}, Env) -> isolated(A, Env) andalso isolated(B, Env);
isolated({'let', [Variable], Value, Body}, Env) -> isolated(Body, Env#{Variable => {guard, Value, Env}});
isolated(_, _) -> false.

-spec both(plain_text:expression(), plain_text:expression()) -> plain_text:expression().
both(A, B) -> {op, 'andalso', A, B}.

-spec test(plain_tree:tree(), environment()) -> plain_text:expression().
test({v, _} = Variable, Env) ->
    case maps:get(Variable, Env) of
        {guard, Value, Outer} -> test(Value, Outer);
        Known -> Known
    end;
test({lit, _, _} = Literal, Env) -> plain_value:value(Literal, Env);
test({tup, Elements}, Env) -> {tuple, [test(X, Env) || X <- Elements]};
test({cons, Head, Tail}, Env) -> {cons, test(Head, Env), test(Tail, Env)};
test({'let', [Variable], Value, Body}, Env) -> test(Body, Env#{Variable => {guard, Value, Env}});
test({'try', Body, _, _, _, _}, Env) -> test(Body, Env);
test({'case', [Value], [{[{lit, true, _}], _, Then}, {[{lit, false, _}], _, Else} | _], _}, Env) ->
    case {Then, Else} of
        {{lit, true, _}, {lit, fail, _}} -> {op, '==', test(Value, Env), {atom, true}};
        {_, {lit, false, _}} -> {op, 'andalso', test(Value, Env), test(Then, Env)};
        {{lit, true, _}, _} -> {op, 'orelse', test(Value, Env), test(Else, Env)};
        _ -> throw(complex)
    end;
test({call, {lit, erlang, _}, {lit, Function, _}, Arguments, _}, Env) ->
    case pure(Function, [test(A, Env) || A <- Arguments]) of
        no -> throw(complex);
        Test -> Test
    end;
test(_, _) -> throw(complex).

%% @doc A call of erlang that the profile has as it is, or as a few of its own operators.
-spec pure(atom(), [plain_text:expression()]) -> plain_text:expression() | no.
pure(Operator, [A, B]) when Operator =:= 'div'; Operator =:= 'rem'; Operator =:= '=:='; Operator =:= '=/=' -> {op, Operator, A, B};
pure(Operator, [_, _] = Both) when Operator =:= '+'; Operator =:= '-'; Operator =:= '*'; Operator =:= '<'; Operator =:= '>'; Operator =:= '=<';
                                   Operator =:= '>='; Operator =:= '=='; Operator =:= '/=' -> plain_float:operator(Operator, Both);
pure('-', [{tuple, [{atom, '#float'}, {int, Key}]}]) -> {tuple, [{atom, '#float'}, {int, -Key}]};
pure('-', [A]) -> case plain_float:needs('-', [A]) of true -> no; false -> {neg, A} end;
pure('and', [A, B]) -> {op, 'andalso', A, B};
pure('or', [A, B]) -> {op, 'orelse', A, B};
pure('xor', [A, B]) -> {op, '/=', A, B};
pure('not', [A]) -> {op, '==', A, {atom, false}};
pure(is_boolean, [A]) -> {op, 'orelse', {op, '==', A, {atom, true}}, {op, '==', A, {atom, false}}};
pure(is_number, [A]) ->
    case plain_float:are_made() of
        true -> {op, 'orelse', {call, is_integer, [A]}, tagged(A, '#float')};
        false -> {call, is_integer, [A]}
    end;
pure(is_float, [A]) -> case plain_float:are_made() of true -> tagged(A, '#float'); false -> {atom, false} end;
pure(is_port, [_]) -> {atom, false};
pure(Function, [A]) when Function =:= is_binary; Function =:= is_bitstring -> tagged(A, '#bin');
pure(is_map, [A]) -> tagged(A, '#map');
pure(is_function, [A]) -> tagged(A, '#fun');
pure(is_function, [A, N]) -> both(tagged(A, '#fun'), {op, '==', {call, element, [{int, 2}, A]}, N});
pure(is_tuple, [A]) -> untagged(A);
pure(is_record, [A, Tag]) -> tagged(A, Tag);
pure(is_record, [A, Tag, Size]) ->
    both({call, is_tuple, [A]}, both({op, '==', {call, tuple_size, [A]}, Size}, {op, '==', {call, element, [{int, 1}, A]}, Tag}));
pure(byte_size, [A]) -> {call, length, [{call, element, [{int, 2}, A]}]};
pure(size, [A]) -> {call, tuple_size, [A]};
pure(self, []) -> {call, self, []};
pure(node, []) -> {atom, 'nonode@nohost'};
pure(node, [_]) -> {atom, 'nonode@nohost'};
pure(Function, [A]) when Function =:= hd; Function =:= tl; Function =:= length; Function =:= tuple_size; Function =:= is_integer;
                         Function =:= is_atom; Function =:= is_list; Function =:= is_pid; Function =:= is_reference -> {call, Function, [A]};
pure(element, [A, B]) -> {call, element, [A, B]};
pure(_, _) -> no.

-spec tagged(plain_text:expression(), atom() | plain_text:expression()) -> plain_text:expression().
tagged(A, Tag) ->
    Wanted = case Tag of
        {_, _} -> Tag;
        _ -> {atom, Tag}
    end,
    both({call, is_tuple, [A]}, both({op, '/=', A, {tuple, []}}, {op, '==', {call, element, [{int, 1}, A]}, Wanted})).

%% Whether a value is a tuple, and none that is a map, a binary or a fun. In the library all its tuples are tuples.
-spec untagged(plain_text:expression()) -> plain_text:expression().
untagged(A) ->
    case plain_state:get(kind) of
        lib -> {call, is_tuple, [A]};
        _ ->
            First = {call, element, [{int, 1}, A]},
            Other = lists:foldr(fun(Tag, Rest) -> both({op, '/=', First, {atom, Tag}}, Rest) end, {op, '/=', First, {atom, '#fun'}}, ['#map', '#bin'] ++ ['#float' || plain_float:are_made()]),
            both({call, is_tuple, [A]}, {op, 'orelse', {op, '==', A, {tuple, []}}, Other})
    end.
