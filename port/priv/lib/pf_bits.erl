%% Binaries of parts that aren't whole bytes or whole binaries. A part of a pattern is {Code, Bits}: 0 is an integer,
%% with 1 more where it has a sign and 2 more where its low byte comes first; 4 is a binary of so many bits, 5 the rest
%% in whole bytes, 6 a character in UTF-8, and 7 the rest. Bits is a number, or {I, Unit}: the value of the I-th part
%% times the unit, or {N, Unit, 0}: the number N times the unit. A binary that isn't whole bytes is refused.
-module(pf_bits).
-compile([export_all, nowarn_export_all]).

%% the values of the parts, where the binary has them and nothing else
-spec match(term(), list()) -> {ok, list()} | false.
match({'#bin', B}, Parts) -> parts(Parts, B, 0, []);
match(_, _) -> false.

%% O bits of the first byte are taken already
-spec parts(list(), list(), 0..7, list()) -> {ok, list()} | false.
parts([], [], 0, Vs) -> {ok, lists:reverse(Vs)};
parts([], _, _, _) -> false;
parts([{5, _}], B, 0, Vs) -> {ok, lists:reverse(Vs, [{'#bin', B}])};
parts([{5, _}], _, _, _) -> false;
parts([{7, _}], B, 0, Vs) -> {ok, lists:reverse(Vs, [{'#bin', B}])};
parts([{7, _}], _, _, _) -> prim:raw(exit, {refused, pf_bits, match, 2});
parts([{6, _} | Parts], B, 0, Vs) -> character(B, Parts, Vs);
parts([{Code, Bits} | Parts], B, O, Vs) ->
    case bits(Bits, Vs) of
        N when is_integer(N), N >= 0 -> part(Code, N, Parts, B, O, Vs);
        _ -> false
    end.

-spec bits(term(), list()) -> term().
bits({I, Unit}, Vs) -> product(lists:nth(length(Vs) - I + 1, Vs), Unit);
bits({N, Unit, _}, _) -> product(N, Unit);
bits(N, _) -> N.

-spec product(term(), pos_integer()) -> term().
product(N, Unit) when is_integer(N) -> N * Unit;
product(_, _) -> none.

-spec part(0..4, non_neg_integer(), list(), list(), 0..7, list()) -> {ok, list()} | false.
part(4, N, Parts, B, 0, Vs) when N rem 8 =:= 0 ->
    case taken(N div 8, B, []) of
        {Bytes, Rest} -> parts(Parts, Rest, 0, [{'#bin', Bytes} | Vs]);
        false -> false
    end;
part(4, _, _, _, _, _) -> prim:raw(exit, {refused, pf_bits, match, 2});
part(Code, N, Parts, B, O, Vs) ->
    case pieces(N, B, O, []) of
        {Ps, Rest, At} -> parts(Parts, Rest, At, [number(Code, N, Ps) | Vs]);
        false -> false
    end.

-spec taken(non_neg_integer(), list(), list()) -> {list(), list()} | false.
taken(0, B, Before) -> {lists:reverse(Before), B};
taken(N, [H | T], Before) -> taken(N - 1, T, [H | Before]);
taken(_, [], _) -> false.

%% N bits as pieces {Value, Bits} of eight bits at most, the last first
-spec pieces(non_neg_integer(), list(), 0..7, list()) -> {list(), list(), 0..7} | false.
pieces(0, B, O, Ps) -> {Ps, B, O};
pieces(_, [], _, _) -> false;
pieces(N, [H | T], 0, Ps) when N >= 8 -> pieces(N - 8, T, 0, [{H, 8} | Ps]);
pieces(N, [H | T], O, Ps) when N >= 8 - O -> pieces(N - 8 + O, T, 0, [{H rem power(8 - O), 8 - O} | Ps]);
pieces(N, [H | _] = B, O, Ps) -> {[{H rem power(8 - O) div power(8 - O - N), N} | Ps], B, O + N}.

-spec power(0..63) -> pos_integer().
power(0) -> 1;
power(N) -> 2 * power(N - 1).

-spec number(0..3, non_neg_integer(), list()) -> integer().
number(_, 0, _) -> 0;
number(0, _, Ps) -> value(lists:reverse(Ps), 0);
number(1, _, Ps) -> with_sign(lists:reverse(Ps));
number(Code, N, Ps) when N rem 8 =:= 0 -> low_first(Code, whole(Ps));
number(_, _, _) -> prim:raw(exit, {refused, pf_bits, match, 2}).

-spec value(list(), integer()) -> integer().
value([{V, N} | Ps], Before) -> value(Ps, Before * power(N) + V);
value([], Before) -> Before.

%% the first piece has the sign
-spec with_sign(list()) -> integer().
with_sign([{V, N} | Ps]) -> value(Ps, signed(V, power(N))).

-spec signed(non_neg_integer(), pos_integer()) -> integer().
signed(V, P) when 2 * V >= P -> V - P;
signed(V, _) -> V.

-spec low_first(2 | 3, list()) -> integer().
low_first(2, Ps) -> value(Ps, 0);
low_first(3, Ps) -> with_sign(Ps).

%% pieces of whole bytes: their bits are put together where the number didn't begin with a byte
-spec whole(list()) -> list().
whole([{_, 8} | _] = Ps) -> Ps;
whole(Ps) -> lists:reverse(joined(lists:reverse(Ps), 0, 0)).

-spec joined(list(), non_neg_integer(), 0..7) -> list().
joined([], _, _) -> [];
joined([{V, N} | Ps], A, K) when K + N >= 8 ->
    Over = K + N - 8,
    [{A * power(8 - K) + V div power(Over), 8} | joined(Ps, V rem power(Over), Over)];
joined([{V, N} | Ps], A, K) -> joined(Ps, A * power(N) + V, K + N).

-spec character(list(), list(), list()) -> {ok, list()} | false.
character([C | T], Parts, Vs) when C < 128 -> parts(Parts, T, 0, [C | Vs]);
character([A, B | T], Parts, Vs) when A >= 194, A < 224, B >= 128, B < 192 ->
    parts(Parts, T, 0, [(A - 192) * 64 + B - 128 | Vs]);
character([A, B, C | T], Parts, Vs) when A >= 224, A < 240, B >= 128, B < 192, C >= 128, C < 192 ->
    known((A - 224) * 4096 + (B - 128) * 64 + C - 128, 2048, T, Parts, Vs);
character([A, B, C, D | T], Parts, Vs)
  when A >= 240, A < 248, B >= 128, B < 192, C >= 128, C < 192, D >= 128, D < 192 ->
    known((A - 240) * 262144 + (B - 128) * 4096 + (C - 128) * 64 + D - 128, 65536, T, Parts, Vs);
character(_, _, _) -> false.

%% a character that is no half of a pair, and isn't written in more bytes than it needs
-spec known(non_neg_integer(), pos_integer(), list(), list(), list()) -> {ok, list()} | false.
known(C, Least, _, _, _) when C < Least -> false;
known(C, _, _, _, _) when C >= 55296, C < 57344 -> false;
known(C, _, _, _, _) when C > 1114111 -> false;
known(C, _, T, Parts, Vs) -> parts(Parts, T, 0, [C | Vs]).

%% A binary of parts: {b, Byte}, {t, Binary}, {n, Code, Value, Size, Unit}, {p, Binary, Size, Unit}, {u, Character}.
-spec build(list()) -> tuple().
build(Parts) -> {'#bin', built(Parts, 0, 0)}.

%% K bits of value A are before the next byte
-spec built(list(), non_neg_integer(), 0..7) -> list().
built([], _, 0) -> [];
built([], _, _) -> prim:raw(exit, {refused, pf_bits, build, 1});
built([{b, I} | T], A, K) when is_integer(I) -> put(I, 8, T, A, K);
built([{t, {'#bin', B}} | T], _, 0) -> B ++ built(T, 0, 0);
built([{t, {'#bin', B}} | T], A, K) -> bytes(B, T, A, K);
built([{n, Code, I, N, U} | T], A, K) when is_integer(I), is_integer(N), N >= 0 -> numbered(Code, I, N * U, T, A, K);
built([{p, {'#bin', B}, N, U} | T], A, K) when is_integer(N), N >= 0, N * U rem 8 =:= 0 ->
    case taken(N * U div 8, B, []) of
        {Bytes, _} -> bytes(Bytes, T, A, K);
        false -> erlang:error(badarg)
    end;
built([{p, {'#bin', _}, N, _} | _], _, _) when is_integer(N), N >= 0 -> prim:raw(exit, {refused, pf_bits, build, 1});
built([{u, C} | T], A, K) when is_integer(C), C >= 0 -> bytes(utf8(C), T, A, K);
built(_, _, _) -> erlang:error(badarg).

-spec bytes(list(), list(), non_neg_integer(), 0..7) -> list().
bytes([H | B], T, A, K) -> put(H, 8, [{t, {'#bin', B}} | T], A, K);
bytes([], T, A, K) -> built(T, A, K).

%% the low N bits of a number, the high ones first
-spec put(integer(), non_neg_integer(), list(), non_neg_integer(), 0..7) -> list().
put(_, 0, T, A, K) -> built(T, A, K);
put(I, N, T, A, K) when N >= 8 - K ->
    Left = N - 8 + K,
    [A * power(8 - K) + low(shifted(I, Left), 8 - K) | put(I, Left, T, 0, 0)];
put(I, N, T, A, K) -> built(T, A * power(N) + low(I, N), K + N).

-spec low(integer(), 0..8) -> non_neg_integer().
low(I, N) -> P = power(N), (I rem P + P) rem P.

%% an integer has no more than 64 bits
-spec shifted(integer(), non_neg_integer()) -> integer().
shifted(I, N) when N > 62 -> shifted(shifted(I, 62), N - 62);
shifted(I, N) when I >= 0 -> I div power(N);
shifted(I, N) -> -((-1 - I) div power(N)) - 1.

-spec numbered(0 | 2, integer(), non_neg_integer(), list(), non_neg_integer(), 0..7) -> list().
numbered(0, I, N, T, A, K) -> put(I, N, T, A, K);
numbered(_, I, N, T, A, K) when N rem 8 =:= 0 -> low_byte(I, N, T, A, K);
numbered(_, _, _, _, _, _) -> prim:raw(exit, {refused, pf_bits, build, 1}).

-spec low_byte(integer(), non_neg_integer(), list(), non_neg_integer(), 0..7) -> list().
low_byte(_, 0, T, A, K) -> built(T, A, K);
low_byte(I, N, T, A, K) -> put(I, 8, [{n, 2, shifted(I, 8), N - 8, 1} | T], A, K).

-spec utf8(non_neg_integer()) -> list().
utf8(C) when C < 128 -> [C];
utf8(C) when C < 2048 -> [192 + C div 64, 128 + C rem 64];
utf8(C) when C < 55296 -> [224 + C div 4096, 128 + C div 64 rem 64, 128 + C rem 64];
utf8(C) when C < 57344 -> erlang:error(badarg);
utf8(C) when C < 65536 -> [224 + C div 4096, 128 + C div 64 rem 64, 128 + C rem 64];
utf8(C) when C < 1114112 -> [240 + C div 262144, 128 + C div 4096 rem 64, 128 + C div 64 rem 64, 128 + C rem 64];
utf8(_) -> erlang:error(badarg).
