%% Patterns and match specifications of ets, after OTP 25: what is bound is a list of {Number, Value}. A guard that
%% raises fails, and a part of a body that raises has the value 'EXIT'.
-module(pf_match).
-compile([export_all, nowarn_export_all]).
-spec matched(term(), list()) -> list().
matched(P, L) -> [values(B) || X <- L, B <- [fits(P, X, [])], B =/= false].

-spec objects(term(), list()) -> list().
objects(P, L) -> [X || X <- L, fits(P, X, []) =/= false].

-spec values(list()) -> list().
values(B) -> [V || {_, V} <- lists:sort(B)].

%% what a specification makes of objects
-spec selected(list(), list()) -> list().
selected(Ms, L) -> lists:append([spec(Ms, X) || X <- L]).

-spec spec(list(), term()) -> list().
spec([], _) -> [];
spec([{H, Gs, Body} | Ms], X) ->
    case fits(H, X, []) of
        false -> spec(Ms, X);
        B ->
            case lists:all(fun(G) -> holds(G, X, B) end, Gs) of
                true -> [made(lists:last(Body), X, B)];
                false -> spec(Ms, X)
            end
    end.

-spec holds(term(), term(), list()) -> boolean().
holds(G, X, B) -> try term(G, X, B) =:= true catch error:_ -> false end.

-spec made(term(), term(), list()) -> term().
made(T, X, B) -> try term(T, X, B) catch error:_ -> 'EXIT' end.

%% ---- what is a specification

-spec checked(term()) -> list().
checked([]) -> [];
checked(Ms) ->
    Finds = fun({H, _, _}) -> is_tuple(H) orelse is_atom(H) andalso not is_known(H) end,
    case is_spec(Ms) andalso lists:all(Finds, Ms) of
        true -> Ms;
        false -> error(badarg)
    end.

-spec is_spec(term()) -> boolean().
is_spec([M | Ms]) -> is_clause(M) andalso (Ms =:= [] orelse is_spec(Ms));
is_spec(_) -> false.

-spec is_clause(term()) -> boolean().
is_clause({H, Gs, [E | Es]}) when is_list(Gs) ->
    Vs = bound(H, []),
    is_pattern(H) andalso lists:all(fun(T) -> is_term(T, Vs) end, Gs ++ [E | Es]);
is_clause(_) -> false.

%% a key of a map is known
-spec is_pattern(term()) -> boolean().
is_pattern([P | Ps]) -> is_pattern(P) andalso is_pattern(Ps);
is_pattern({'#map', L}) -> lists:all(fun({K, P}) -> K =/= '_' andalso number(K) =:= none andalso is_pattern(P) end, L);
is_pattern({'#bin', _}) -> true;
is_pattern(P) when is_tuple(P) -> is_pattern(tuple_to_list(P));
is_pattern(_) -> true.

-spec bound(term(), list()) -> list().
bound(P, Vs) when is_atom(P) -> case number(P) of none -> Vs; N -> [N | Vs] end;
bound([P | Ps], Vs) -> bound(Ps, bound(P, Vs));
bound(P, Vs) when is_tuple(P) -> lists:foldl(fun(Q, Us) -> bound(Q, Us) end, Vs, tuple_to_list(P));
bound(_, Vs) -> Vs.

-spec is_term(term(), list()) -> boolean().
is_term(T, Vs) when is_atom(T) -> case number(T) of none -> true; N -> lists:member(N, Vs) end;
is_term(F, _) when is_function(F) -> true;
is_term([H | T], Vs) -> is_term(H, Vs) andalso is_term(T, Vs);
is_term({'#map', L}, Vs) -> lists:all(fun({K, V}) -> is_term(K, Vs) andalso is_term(V, Vs) end, L);
is_term({'#bin', _}, _) -> true;
is_term({'#float', _}, _) -> true;
is_term({T}, Vs) when is_tuple(T) -> is_term(tuple_to_list(T), Vs);
is_term({const, _}, _) -> true;
is_term({self}, _) -> true;
is_term({node}, _) -> true;
is_term(T, Vs) when is_tuple(T), tuple_size(T) > 1 ->
    (several(element(1, T)) orelse takes(element(1, T), tuple_size(T) - 1)) andalso is_term(tl(tuple_to_list(T)), Vs);
is_term(T, _) -> not is_tuple(T).

-spec takes(term(), non_neg_integer()) -> boolean().
takes(Op, 1) -> one(Op);
takes(Op, 2) -> two(Op);
takes(is_record, 3) -> true;
takes(binary_part, 3) -> true;
takes(node, 0) -> true;
takes(_, _) -> false.

%% the functions of a specification, by how many arguments they take
-spec one(term()) -> boolean().
one('not') -> true;
one('bnot') -> true;
one('+') -> true;
one('-') -> true;
one(is_atom) -> true;
one(is_float) -> true;
one(is_integer) -> true;
one(is_list) -> true;
one(is_number) -> true;
one(is_pid) -> true;
one(is_port) -> true;
one(is_reference) -> true;
one(is_tuple) -> true;
one(is_map) -> true;
one(is_binary) -> true;
one(is_function) -> true;
one(abs) -> true;
one(hd) -> true;
one(tl) -> true;
one(length) -> true;
one(round) -> true;
one(trunc) -> true;
one(float) -> true;
one(size) -> true;
one(map_size) -> true;
one(byte_size) -> true;
one(bit_size) -> true;
one(node) -> true;
one(_) -> false.

-spec two(term()) -> boolean().
two('<') -> true;
two('>') -> true;
two('=<') -> true;
two('>=') -> true;
two('==') -> true;
two('=:=') -> true;
two('/=') -> true;
two('=/=') -> true;
two('+') -> true;
two('-') -> true;
two('*') -> true;
two('/') -> true;
two('div') -> true;
two('rem') -> true;
two('band') -> true;
two('bor') -> true;
two('bxor') -> true;
two('bsl') -> true;
two('bsr') -> true;
two('xor') -> true;
two(element) -> true;
two(map_get) -> true;
two(is_map_key) -> true;
two(binary_part) -> true;
two(_) -> false.

%% what takes as many as there are
-spec several(term()) -> boolean().
several('and') -> true;
several('or') -> true;
several('andalso') -> true;
several('orelse') -> true;
several(_) -> false.

%% ---- values

-spec term(term(), term(), list()) -> term().
term('$_', X, _) -> X;
term('$$', _, B) -> values(B);
term(V, _, B) when is_atom(V) -> case number(V) of none -> V; N -> {_, X} = lists:keyfind(N, 1, B), X end;
term({'#map', L}, X, B) -> maps:from_list([{term(K, X, B), term(V, X, B)} || {K, V} <- L]);
term({'#bin', L}, _, _) -> {'#bin', L};
term({'#float', K}, _, _) -> {'#float', K};
term({T}, X, B) when is_tuple(T) -> list_to_tuple([term(E, X, B) || E <- tuple_to_list(T)]);
term({const, C}, _, _) -> C;
term({self}, _, _) -> self();
term({node}, _, _) -> node();
term({'andalso', A, C}, X, B) -> case term(A, X, B) of true -> term(C, X, B); false -> false end;
term({'orelse', A, C}, X, B) -> case term(A, X, B) of true -> true; false -> term(C, X, B) end;
term({'and', A, C}, X, B) -> erlang:'and'(term(A, X, B), term(C, X, B));
term({'or', A, C}, X, B) -> erlang:'or'(term(A, X, B), term(C, X, B));
term({is_record, A, N, S}, X, B) -> is_named(term(A, X, B), term(N, X, B), term(S, X, B));
term({binary_part, A, P}, X, B) -> {I, N} = term(P, X, B), binary:part(term(A, X, B), I, N);
term({binary_part, A, I, N}, X, B) -> binary:part(term(A, X, B), term(I, X, B), term(N, X, B));
term({element, I, A}, X, B) -> element(term(I, X, B), term(A, X, B));
term({map_get, K, A}, X, B) -> maps:get(term(K, X, B), term(A, X, B));
term({is_map_key, K, A}, X, B) -> maps:is_key(term(K, X, B), term(A, X, B));
term(F, _, _) when is_function(F) -> F;
term({Op, A}, X, B) -> op(Op, term(A, X, B));
term({Op, A, C}, X, B) -> op(Op, term(A, X, B), term(C, X, B));
term([H | T], X, B) -> [term(H, X, B) | term(T, X, B)];
term(T, X, B) when is_tuple(T) -> term(together(element(1, T), tl(tuple_to_list(T))), X, B);
term(V, _, _) -> V.

%% 'and' and its like of more than two
-spec together(atom(), list()) -> term().
together(Op, [A, B]) -> {Op, A, B};
together(Op, [A | As]) -> {Op, A, together(Op, As)};
together(_, []) -> error(badarg).

-spec is_named(term(), term(), term()) -> boolean().
is_named(T, N, S) when is_atom(N), is_integer(S), S >= 0 ->
    is_tuple(T) andalso tuple_size(T) =:= S andalso element(1, T) =:= N.

-spec op(term(), term()) -> term().
op('not', A) -> not A;
op('bnot', A) -> bnot A;
op('+', A) -> +A;
op('-', A) -> -A;
op(abs, A) -> abs(A);
op(hd, A) -> hd(A);
op(tl, A) -> tl(A);
op(length, A) -> length(A);
op(size, A) -> size(A);
op(map_size, A) -> map_size(A);
op(byte_size, A) -> byte_size(A);
op(bit_size, A) -> bit_size(A);
op(round, A) -> round(A);
op(trunc, A) -> trunc(A);
op(float, A) -> float(A);
op(node, A) -> node(A);
op(is_atom, A) -> is_atom(A);
op(is_integer, A) -> is_integer(A);
op(is_float, A) -> is_float(A);
op(is_number, A) -> is_number(A);
op(is_pid, A) -> is_pid(A);
op(is_reference, A) -> is_reference(A);
op(is_port, _) -> false;
op(is_list, A) -> is_list(A);
op(is_tuple, A) -> is_tuple(A);
op(is_map, A) -> is_map(A);
op(is_binary, A) -> is_binary(A);
op(is_function, A) -> is_function(A);
op('andalso', A) when is_boolean(A) -> A;
op('orelse', A) when is_boolean(A) -> A;
op('and', A) when is_boolean(A) -> A;
op('or', A) when is_boolean(A) -> A.

-spec op(term(), term(), term()) -> term().
op('<', A, B) -> A < B;
op('>', A, B) -> A > B;
op('=<', A, B) -> A =< B;
op('>=', A, B) -> A >= B;
op('==', A, B) -> A == B;
op('=:=', A, B) -> A =:= B;
op('/=', A, B) -> A /= B;
op('=/=', A, B) -> A =/= B;
op('+', A, B) -> A + B;
op('-', A, B) -> A - B;
op('*', A, B) -> A * B;
op('/', A, B) -> A / B;
op('div', A, B) -> A div B;
op('rem', A, B) -> A rem B;
op('band', A, B) -> A band B;
op('bor', A, B) -> A bor B;
op('bxor', A, B) -> A bxor B;
op('bsl', A, B) -> A bsl B;
op('bsr', A, B) -> A bsr B;
op('xor', A, B) -> A xor B.

%% ---- patterns: MATCH_MAPS is set where the program has maps

-ifdef(MATCH_MAPS).
-define(TUPLE(P, X, B), tuple(P, X, B)).

-spec tuple(tuple(), tuple(), list()) -> list() | false.
tuple({'#map', Ps}, X, B) -> fits_map(Ps, X, B);
tuple(P, X, B) -> fits_all(tuple_to_list(P), tuple_to_list(X), B).
-else.
-define(TUPLE(P, X, B), fits_all(tuple_to_list(P), tuple_to_list(X), B)).
-endif.

-spec fits(term(), term(), list() | false) -> list() | false.
fits('_', _, B) -> B;
fits(P, X, B) when is_atom(P) ->
    case number(P) of
        none -> same(P, X, B);
        N -> case lists:keyfind(N, 1, B) of false -> [{N, X} | B]; {_, X} -> B; _ -> false end
    end;
fits(P, X, B) when is_tuple(P), is_tuple(X), tuple_size(P) =:= tuple_size(X) -> ?TUPLE(P, X, B);
fits([P | Ps], [X | Xs], B) -> fits_all([P | Ps], [X | Xs], B);
fits(P, X, B) -> same(P, X, B).

-spec same(term(), term(), list()) -> list() | false.
same(X, X, B) -> B;
same(_, _, _) -> false.

-spec fits_all(list(), list(), list() | false) -> list() | false.
fits_all([], [], B) -> B;
fits_all([P | Ps], [X | Xs], B) -> case fits(P, X, B) of false -> false; B2 -> fits_all(Ps, Xs, B2) end;
fits_all(_, _, _) -> false.

-spec fits_map(list(), term(), list() | false) -> list() | false.
fits_map([], {'#map', _}, B) -> B;
fits_map([{K, P} | Ps], {'#map', L}, B) ->
    case lists:keyfind(K, 1, L) of
        false -> false;
        {_, X} -> case fits(P, X, B) of false -> false; B2 -> fits_map(Ps, {'#map', L}, B2) end
    end;
fits_map(_, _, _) -> false.

%% Whether an object that fits has a known key, so that all there are are found at once.
-spec keyed(term(), pos_integer()) -> boolean().
keyed(P, Pos) -> is_tuple(P) andalso tuple_size(P) >= Pos andalso is_known(element(Pos, P)).

-spec is_known(term()) -> boolean().
is_known('_') -> false;
is_known(P) when is_atom(P) -> number(P) =:= none;
is_known([P | Ps]) -> is_known(P) andalso is_known(Ps);
is_known({'#map', L}) -> L =:= [];
is_known(P) when is_tuple(P) -> lists:all(fun(Q) -> is_known(Q) end, tuple_to_list(P));
is_known(_) -> true.

%% the number of a variable
-spec number(term()) -> non_neg_integer() | none.
number('$0') -> 0;
number('$1') -> 1;
number('$2') -> 2;
number('$3') -> 3;
number('$4') -> 4;
number('$5') -> 5;
number('$6') -> 6;
number('$7') -> 7;
number('$8') -> 8;
number('$9') -> 9;
number('$10') -> 10;
number('$11') -> 11;
number('$12') -> 12;
number('$13') -> 13;
number('$14') -> 14;
number('$15') -> 15;
number('$16') -> 16;
number('$17') -> 17;
number('$18') -> 18;
number('$19') -> 19;
number('$20') -> 20;
number('$21') -> 21;
number('$22') -> 22;
number('$23') -> 23;
number('$24') -> 24;
number('$25') -> 25;
number('$26') -> 26;
number('$27') -> 27;
number('$28') -> 28;
number('$29') -> 29;
number('$30') -> 30;
number('$31') -> 31;
number('$32') -> 32;
number('$33') -> 33;
number('$34') -> 34;
number('$35') -> 35;
number('$36') -> 36;
number('$37') -> 37;
number('$38') -> 38;
number('$39') -> 39;
number('$40') -> 40;
number(_) -> none.
