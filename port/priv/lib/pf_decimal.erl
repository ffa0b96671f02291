%% Floats as texts, and back. A number above 0 is exact in decimal as {E, Digits}: 0.D1D2.. times 10^E, without zeros at
%% either end, so that such pairs are ordered as the numbers are. What is larger than 64 bits is a list of parts below
%% 10^12, the lowest first.
-module(pf_decimal).
-compile([export_all, nowarn_export_all]).

-define(PART, 1000000000000).
%% 2^52
-define(ONE, 4503599627370496).

%% ---- floats in decimal

%% a float is its mantissa times a power of 2
-spec parts(K :: pos_integer()) -> {pos_integer(), integer()}.
parts(K) when K < ?ONE -> {K, -1074};
parts(K) -> {K rem ?ONE + ?ONE, K div ?ONE - 1075}.

%% M * 2^X
-spec decimal(M :: pos_integer(), X :: integer()) -> {integer(), list()}.
decimal(M, X) when X < 0, M rem 2 =:= 0 -> decimal(M div 2, X + 1);
decimal(M, X) when X < 0 -> pointed(all_digits(by_fives(large(M), -X)), X);
decimal(M, X) -> pointed(all_digits(by_twos(large(M), X)), 0).

-spec large(non_neg_integer()) -> list().
large(M) when M < ?PART -> [M];
large(M) -> [M rem ?PART, M div ?PART].

-spec by_fives(list(), non_neg_integer()) -> list().
by_fives(L, 0) -> L;
by_fives(L, N) when N >= 8 -> by_fives(times(L, 390625, 0), N - 8);
by_fives(L, N) -> by_fives(times(L, 5, 0), N - 1).

-spec by_twos(list(), non_neg_integer()) -> list().
by_twos(L, 0) -> L;
by_twos(L, N) when N >= 16 -> by_twos(times(L, 65536, 0), N - 16);
by_twos(L, N) -> by_twos(times(L, 2, 0), N - 1).

-spec times(list(), pos_integer(), non_neg_integer()) -> list().
times([H | T], N, C) -> V = H * N + C, [V rem ?PART | times(T, N, V div ?PART)];
times([], _, 0) -> [];
times([], _, C) -> [C].

%% the digits of a large number, and zeros before them
-spec all_digits(list()) -> list().
all_digits(L) -> digits_of(L, []).

-spec digits_of(list(), list()) -> list().
digits_of([], Ds) -> Ds;
digits_of([P | L], Ds) -> digits_of(L, of_part(P, 12, Ds)).

-spec of_part(non_neg_integer(), non_neg_integer(), list()) -> list().
of_part(_, 0, Ds) -> Ds;
of_part(P, N, Ds) -> of_part(P div 10, N - 1, [P rem 10 | Ds]).

%% whole digits times 10^X
-spec pointed(list(), integer()) -> {integer(), list()}.
pointed([0 | Ds], X) -> pointed(Ds, X);
pointed(Ds, X) -> {length(Ds) + X, without_zeros(Ds)}.

-spec without_zeros(list()) -> list().
without_zeros(Ds) -> lists:reverse(above_zero(lists:reverse(Ds))).

-spec above_zero(list()) -> list().
above_zero([0 | Ds]) -> above_zero(Ds);
above_zero(Ds) -> Ds.

%% ---- rounding

%% N digits that are nearest, and of two the even ones, as C has it
-spec nearest(N :: integer(), {integer(), list()}) -> {integer(), list()}.
nearest(N, _) when N < 0 -> {0, []};
nearest(N, {E, Ds}) ->
    {Kept, Rest} = cut(N, Ds, []),
    case Rest > [5] orelse Rest =:= [5] andalso is_odd(Kept) of
        true -> more(Kept, E);
        false -> less(Kept, E)
    end.

%% N digits, of half the larger ones
-spec half_up(N :: integer(), {integer(), list()}) -> {integer(), list()}.
half_up(N, _) when N < 0 -> {0, []};
half_up(N, {E, Ds}) ->
    {Kept, Rest} = cut(N, Ds, []),
    case Rest >= [5] of
        true -> more(Kept, E);
        false -> less(Kept, E)
    end.

%% the first N digits, the last first, and the others
-spec cut(non_neg_integer(), list(), list()) -> {list(), list()}.
cut(0, Ds, Kept) -> {Kept, Ds};
cut(_, [], Kept) -> {Kept, []};
cut(N, [D | Ds], Kept) -> cut(N - 1, Ds, [D | Kept]).

-spec is_odd(list()) -> boolean().
is_odd([D | _]) -> D rem 2 =:= 1;
is_odd([]) -> false.

-spec more(list(), integer()) -> {integer(), list()}.
more([9 | Kept], E) -> more(Kept, E);
more([D | Kept], E) -> {E, lists:reverse(Kept, [D + 1])};
more([], E) -> {E + 1, [1]}.

-spec less(list(), integer()) -> {integer(), list()}.
less([], _) -> {0, []};
less([0 | Kept], E) -> less(Kept, E);
less(Kept, E) -> {E, lists:reverse(Kept)}.

%% The fewest digits that are read back as this float, and of those the nearest.
-spec shortest(K :: pos_integer()) -> {integer(), list()}.
shortest(K) ->
    {M, X} = parts(K),
    Below = case M =:= ?ONE andalso X > -1074 of true -> 1; false -> 2 end,
    fewest(1, decimal(M, X), decimal(4 * M - Below, X - 2), decimal(4 * M + 2, X - 2), M rem 2).

-spec fewest(pos_integer(), tuple(), tuple(), tuple(), 0..1) -> {integer(), list()}.
fewest(N, {E, Ds} = V, Low, High, Odd) ->
    {Kept, Rest} = cut(N, Ds, []),
    {Down, Up} = {less(Kept, E), more(Kept, E)},
    case {is_between(Low, Down, High, Odd), Rest =/= [] andalso is_between(Low, Up, High, Odd)} of
        {true, true} when Rest > [5] -> Up;
        {true, true} when Rest < [5] -> Down;
        {true, true} -> nearest(N, V);
        {true, false} -> Down;
        {false, true} -> Up;
        {false, false} -> fewest(N + 1, V, Low, High, Odd)
    end.

-spec is_between(tuple(), tuple(), tuple(), 0..1) -> boolean().
is_between(Low, V, High, 0) -> Low =< V andalso V =< High;
is_between(Low, V, High, 1) -> Low < V andalso V < High.

%% ---- texts

-spec to_list(term()) -> list().
to_list(F) -> to_list(F, []).

-spec to_list(term(), list()) -> list().
to_list({'#float', K}, Options) ->
    {Form, Compact} = form(Options, {scientific, 20}, false),
    case K < 0 of
        true -> [$- | text(-K, Form, Compact)];
        false -> text(K, Form, Compact)
    end;
to_list(_, _) -> erlang:error(badarg).

%% the last form that is named
-spec form(term(), term(), boolean()) -> {term(), boolean()}.
form([], Form, Compact) -> {Form, Compact};
form([compact | Options], Form, _) -> form(Options, Form, true);
form([short | Options], _, Compact) -> form(Options, short, Compact);
form([{decimals, N} | Options], _, Compact) when is_integer(N), N >= 0, N =< 253 ->
    form(Options, {decimals, N}, Compact);
form([{scientific, N} | Options], _, Compact) when is_integer(N), N >= 0, N =< 249 ->
    form(Options, {scientific, N}, Compact);
form(_, _, _) -> erlang:error(badarg).

-spec text(K :: non_neg_integer(), term(), boolean()) -> list().
text(K, short, _) -> short(K);
text(K, {scientific, N}, _) ->
    {Ds, E} = scientific(N, nearest(N + 1, exactly(K))),
    Ds ++ [$e | exponent(E)];
text(K, {decimals, N}, Compact) when K >= 1076 * ?ONE -> of_large(N, Compact, exactly(K));
text(K, {decimals, N}, true) when N > 0 -> compact(lists:reverse(decimals(K, N)));
text(K, {decimals, N}, _) -> decimals(K, N).

%% From 2^53 on Erlang has no long text, and takes zeros from the end of the integer.
-spec of_large(non_neg_integer(), boolean(), {integer(), list()}) -> list().
of_large(N, Compact, {E, _}) when E + N > 200; N =:= 0, Compact -> prim:raw(exit, {refused, erlang, float_to_list, 2});
of_large(N, true, V) -> compact(lists:reverse(fixed(N, V)));
of_large(N, false, V) -> fixed(N, V).

-spec exactly(K :: non_neg_integer()) -> {integer(), list()}.
exactly(0) -> {0, []};
exactly(K) ->
    {M, X} = parts(K),
    decimal(M, X).

%% Up to 18 decimals are counted as Erlang does, by floats.
-spec decimals(K :: non_neg_integer(), non_neg_integer()) -> list().
decimals(K, N) when N =< 18 ->
    I = pf_float:trunc({'#float', K}),
    Fraction = pf_float:round(pf_float:'*'(pf_float:'-'({'#float', K}, I), ten(N))),
    integer_to_list(I + Fraction div ten(N)) ++ fraction(N, Fraction rem ten(N));
decimals(K, N) ->
    {E, _} = V = exactly(K),
    fixed(N, nearest(E + N, V)).

-spec fraction(non_neg_integer(), non_neg_integer()) -> list().
fraction(0, _) -> [];
fraction(N, Number) -> [$. | [$0 + D || D <- of_part(Number, N, [])]].

-spec ten(0..18) -> pos_integer().
ten(0) -> 1;
ten(N) -> 10 * ten(N - 1).

%% from the last character on
-spec compact(list()) -> list().
compact([$0, $. | Before]) -> lists:reverse(Before, ".0");
compact([$0 | Before]) -> compact(Before);
compact(Text) -> lists:reverse(Text).

%% the shorter one of both forms; from 2^53 on the one with an exponent
-spec short(K :: non_neg_integer()) -> list().
short(0) -> "0.0";
short(K) ->
    {E, Ds} = shortest(K),
    With = after_all(Ds) ++ [$e | integer_to_list(E - 1)],
    case K < 1076 * ?ONE andalso E > -4 andalso fixed(larger(1, length(Ds) - E), {E, Ds}) of
        Text when is_list(Text), length(Text) =< length(With) -> Text;
        _ -> With
    end.

-spec larger(integer(), integer()) -> integer().
larger(A, B) when A < B -> B;
larger(A, _) -> A.

-spec after_all(list()) -> list().
after_all([D]) -> [$0 + D, $., $0];
after_all([D | Ds]) -> [$0 + D, $. | padded(length(Ds), Ds)].

%% N digits after the point
-spec fixed(N :: non_neg_integer(), {integer(), list()}) -> list().
fixed(0, {E, Ds}) ->
    {Whole, _} = whole(E, Ds, []),
    Whole;
fixed(N, {E, Ds}) ->
    {Whole, Rest} = whole(E, Ds, []),
    Whole ++ [$. | padded(N, zeros(E, Rest))].

-spec whole(integer(), list(), list()) -> {list(), list()}.
whole(E, Ds, []) when E =< 0 -> {"0", Ds};
whole(0, Ds, Before) -> {lists:reverse(Before), Ds};
whole(E, [D | Ds], Before) -> whole(E - 1, Ds, [$0 + D | Before]);
whole(E, [], Before) -> whole(E - 1, [], [$0 | Before]).

%% zeros between the point and the first digit
-spec zeros(integer(), list()) -> list().
zeros(E, Ds) when E < 0 -> [0 | zeros(E + 1, Ds)];
zeros(_, Ds) -> Ds.

-spec padded(non_neg_integer(), list()) -> list().
padded(0, _) -> [];
padded(N, [D | Ds]) -> [$0 + D | padded(N - 1, Ds)];
padded(N, []) -> [$0 | padded(N - 1, [])].

%% one digit before the point and N after it, and the exponent
-spec scientific(N :: non_neg_integer(), {integer(), list()}) -> {list(), integer()}.
scientific(0, {E, [D | _]}) -> {[$0 + D], E - 1};
scientific(N, {E, [D | Ds]}) -> {[$0 + D, $. | padded(N, Ds)], E - 1};
scientific(N, {_, []}) -> scientific(N, {1, [0]}).

%% with a sign, and two digits at least
-spec exponent(integer()) -> list().
exponent(E) when E < 0 -> [$- | two(-E)];
exponent(E) -> [$+ | two(E)].

-spec two(non_neg_integer()) -> list().
two(E) when E < 10 -> [$0, $0 + E];
two(E) -> integer_to_list(E).

%% ---- ~f, ~e and ~g of io_lib: the digits of float_to_list/1, and of half the larger ones

-spec format($f | $e | $g, term(), P :: pos_integer()) -> list().
format(Code, {'#float', K}, P) when K < 0 -> [$- | formatted(Code, nearest(21, exactly(-K)), P)];
format(Code, {'#float', K}, P) -> formatted(Code, nearest(21, exactly(K)), P).

-spec formatted($f | $e | $g, {integer(), list()}, P :: pos_integer()) -> list().
formatted($f, {E, _} = V, P) when P > 0 -> fixed(P, half_up(E + P, V));
formatted($e, V, P) when P > 1 ->
    {Ds, E} = scientific(P - 1, half_up(P, V)),
    Ds ++ [$e | with_sign(E)];
formatted($g, {E, Ds} = V, P) when E >= 0, E =< 4, Ds =/= [], P > E orelse P =< 1 andalso E =:= 0 ->
    formatted($f, V, P - E);
formatted($g, V, P) when P > 0 -> formatted($e, V, larger(2, P));
formatted(_, _, _) -> erlang:error(badarg).

-spec with_sign(integer()) -> list().
with_sign(E) when E < 0 -> integer_to_list(E);
with_sign(E) -> [$+ | integer_to_list(E)].

%% ---- from a text

-spec from_list(term()) -> term().
from_list([$- | T]) -> pf_float:'-'(unsigned(T));
from_list([$+ | T]) -> unsigned(T);
from_list(T) -> unsigned(T).

-spec unsigned(term()) -> term().
unsigned(T) ->
    case some_digits(T, []) of
        {[_ | _] = Whole, [$. | Rest]} -> unsigned(Whole, some_digits(Rest, Whole));
        _ -> erlang:error(badarg)
    end.

-spec unsigned(list(), {list(), term()}) -> term().
unsigned(Whole, {All, T}) when length(All) > length(Whole) ->
    digits_times(All, ten_to(T) - length(All) + length(Whole));
unsigned(_, _) -> erlang:error(badarg).

%% the last digit first
-spec some_digits(term(), list()) -> {list(), term()}.
some_digits([C | T], Ds) when is_integer(C), C >= $0, C =< $9 -> some_digits(T, [C - $0 | Ds]);
some_digits(T, Ds) -> {Ds, T}.

-spec ten_to(term()) -> integer().
ten_to([]) -> 0;
ten_to([C | T]) when C =:= $e; C =:= $E -> list_to_integer(T);
ten_to(_) -> erlang:error(badarg).

%% digits, the last first, times 10^X
-spec digits_times(list(), integer()) -> term().
digits_times([0 | Ds], X) -> digits_times(Ds, X + 1);
digits_times([], _) -> {'#float', 0};
digits_times(Ds, X) ->
    {E, Kept} = pointed(lists:reverse(Ds), X),
    nearest_float(lists:reverse(Kept), X, E).

-spec nearest_float(list(), integer(), integer()) -> term().
nearest_float(_, _, E) when E > 310 -> erlang:error(badarg);
nearest_float([], _, _) -> {'#float', 0};
nearest_float(_, _, E) when E < -330 -> {'#float', 0};
nearest_float(Ds, X, _) when X >= -18, X =< 0, length(Ds) < 16 -> pf_float:'/'(number(Ds), ten(-X));
nearest_float(Ds, X, _) when X >= 0 -> quotient(by_tens(in_parts(Ds), X), [1], 0);
nearest_float(Ds, X, _) -> quotient(in_parts(Ds), by_tens([1], -X), 0).

-spec number(list()) -> non_neg_integer().
number([]) -> 0;
number([D | Ds]) -> D + 10 * number(Ds).

-spec in_parts(list()) -> list().
in_parts([]) -> [];
in_parts(Ds) ->
    {Part, Rest} = cut(12, Ds, []),
    [number(lists:reverse(Part)) | in_parts(Rest)].

-spec by_tens(list(), non_neg_integer()) -> list().
by_tens(L, 0) -> L;
by_tens(L, N) when N >= 6 -> by_tens(times(L, 1000000, 0), N - 6);
by_tens(L, N) -> by_tens(times(L, 10, 0), N - 1).

%% A / B * 2^X, where A is brought between B and 2 * B first
-spec quotient(list(), list(), integer()) -> term().
quotient(A, B, X) when length(A) < length(B) -> quotient(times(A, 65536, 0), B, X - 16);
quotient(A, B, X) when length(A) > length(B) -> quotient(A, times(B, 65536, 0), X + 16);
quotient(A, B, X) ->
    case {is_below(A, B), is_below(A, times(B, 2, 0))} of
        {true, _} -> quotient(times(A, 2, 0), B, X - 1);
        {false, false} -> quotient(A, times(B, 2, 0), X + 1);
        {false, true} -> bits(62, A, B, 0, X - 61)
    end.

-spec bits(non_neg_integer(), list(), list(), non_neg_integer(), integer()) -> term().
bits(0, A, _, Q, X) -> made(Q, X, case A of [] -> 0; _ -> 1 end);
bits(N, A, B, Q, X) ->
    case is_below(A, B) of
        true -> bits(N - 1, times(A, 2, 0), B, 2 * Q, X);
        false -> bits(N - 1, times(without(A, B, 0), 2, 0), B, 2 * Q + 1, X)
    end.

%% all floats are below 2^1024
-spec made(pos_integer(), integer(), 0..1) -> term().
made(_, X, _) when X > 962 -> erlang:error(badarg);
made(Q, 962, _) when Q >= 4611686018427387648 -> erlang:error(badarg);
made(Q, X, R) -> pf_float:made({1, Q, X, R}).

-spec is_below(list(), list()) -> boolean().
is_below(A, B) when length(A) =/= length(B) -> length(A) < length(B);
is_below(A, B) -> lists:reverse(A) < lists:reverse(B).

-spec without(list(), list(), 0..1) -> list().
without([A | As], [B | Bs], C) when A - B < C -> part(A - B - C + ?PART, without(As, Bs, 1));
without([A | As], [B | Bs], C) -> part(A - B - C, without(As, Bs, 0));
without([A | As], [], 1) when A < 1 -> part(?PART - 1, without(As, [], 1));
without([A | As], [], C) -> part(A - C, without(As, [], 0));
without([], [], 0) -> [].

%% a large number has no zero as its highest part
-spec part(non_neg_integer(), list()) -> list().
part(0, []) -> [];
part(P, L) -> [P | L].
