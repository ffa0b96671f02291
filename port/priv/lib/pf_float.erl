%% Floats, of 64 bits, as {'#float', K}: K is the bits of the float without its sign as a number, and below 0 where the
%% float is. So floats are ordered as their K, each has one K, and -0.0 is 0.0. What is computed is rounded to the
%% nearest float, and of two to the even one, as Erlang does. Where Erlang has an integer of more than 64 bits, or a text,
%% the process ends as refused.
-module(pf_float).
-compile([export_all, nowarn_export_all, {no_auto_import, [abs/1, ceil/1, float/1, floor/1, round/1, trunc/1]}]).

%% 2^52
-define(ONE, 4503599627370496).

-spec '+'(term(), term()) -> term().
'+'(A, B) when is_integer(A), is_integer(B) -> A + B;
'+'(A, B) -> made(add(parts(A), parts(B))).

-spec '-'(term(), term()) -> term().
'-'(A, B) when is_integer(A), is_integer(B) -> A - B;
'-'(A, B) ->
    {S, M, X} = parts(B),
    made(add(parts(A), {-S, M, X})).

-spec '*'(term(), term()) -> term().
'*'(A, B) when is_integer(A), is_integer(B) -> A * B;
'*'(A, B) -> made(times(parts(A), parts(B))).

-spec '/'(term(), term()) -> term().
'/'(A, B) -> made(over(parts(A), parts(B))).

-spec '-'(term()) -> term().
'-'({'#float', K}) -> {'#float', -K};
'-'(A) -> -A.

%% A number as {Sign, Mantissa, Exponent}: the mantissa of 53 bits, and 0 of 0.
-spec parts(term()) -> tuple().
parts({'#float', K}) when K < 0 ->
    {_, M, X} = parts({'#float', -K}),
    {-1, M, X};
parts({'#float', 0}) -> {1, 0, 0};
parts({'#float', K}) when K < ?ONE -> full(1, K, -1074);
parts({'#float', K}) -> {1, K rem ?ONE + ?ONE, K div ?ONE - 1075};
parts(I) when is_integer(I) -> parts(of_integer(I));
parts(_) -> erlang:error(badarith).

-spec full(term(), term(), term()) -> tuple().
full(S, M, X) when M < ?ONE -> full(S, 2 * M, X - 1);
full(S, M, X) -> {S, M, X}.

%% An exact number is {Sign, Number of less than 63 bits, Exponent, Rest}: the rest is 1 where it is a little larger.
-spec add(tuple(), tuple()) -> tuple().
add({_, 0, _}, {S, M, X}) -> {S, M, X, 0};
add({S, M, X}, {_, 0, _}) -> {S, M, X, 0};
add({_, _, X} = A, {_, _, Y} = B) when X < Y -> add(B, A);
add({S, M, X}, {T, N, Y}) when X - Y < 10 -> sum(S, M * 512, X - 9, T, N * power(9 - X + Y), 0);
add({S, M, X}, {T, N, Y}) when X - Y < 63 ->
    P = power(X - Y),
    sum(S, M * 512, X - 9, T, N * 512 div P, rest(N * 512 rem P));
add({S, M, X}, {T, _, _}) -> sum(S, M * 512, X - 9, T, 0, 1).

-spec sum(term(), term(), term(), term(), term(), term()) -> tuple().
sum(S, A, X, S, B, R) -> {S, A + B, X, R};
sum(S, A, X, _, B, R) when A >= B + R -> {S, A - B - R, X, R};
sum(_, A, X, T, B, 0) -> {T, B - A, X, 0}.

-spec times(tuple(), tuple()) -> tuple().
times({S, M, X}, {T, N, Y}) ->
    {A, B, C, D} = {M div 134217728, M rem 134217728, N div 134217728, N rem 134217728},
    Mid = A * D + B * C + B * D div 134217728,
    Low = Mid rem 134217728,
    {S * T, (A * C + Mid div 134217728) * 512 + Low div 262144, X + Y + 45, rest(Low rem 262144 + B * D rem 134217728)}.

-spec over(tuple(), tuple()) -> tuple().
over(_, {_, 0, _}) -> erlang:error(badarith);
over({S, M, X}, {T, N, Y}) -> digits(6, M rem N, N, M div N, {S * T, X - Y - 54}).

%% Nine bits at a time.
-spec digits(term(), term(), term(), term(), term()) -> tuple().
digits(0, R, _, Q, {S, X}) -> {S, Q, X, rest(R)};
digits(I, R, N, Q, At) -> digits(I - 1, R * 512 rem N, N, Q * 512 + R * 512 div N, At).

-spec rest(term()) -> term().
rest(0) -> 0;
rest(_) -> 1.

-spec power(term()) -> term().
power(N) when N >= 16 -> 65536 * power(N - 16);
power(N) when N >= 4 -> 16 * power(N - 4);
power(N) -> element(N + 1, {1, 2, 4, 8}).

%% The float that is nearest.
-spec made(tuple()) -> tuple().
made({_, 0, _, 0}) -> {'#float', 0};
made({S, M, X, 0}) when M < ?ONE, X > -1074 -> made({S, 2 * M, X - 1, 0});
made({S, M, X, R}) ->
    case larger(over_by(M, 0), -1074 - X) of
        N when N > 62 -> {'#float', 0};
        0 -> packed(S, M, X);
        N -> rounded(S, M, X + N, power(N), R)
    end.

-spec larger(term(), term()) -> term().
larger(A, B) when A < B -> B;
larger(A, _) -> A.

%% By how many bits a number is too long.
-spec over_by(term(), term()) -> term().
over_by(M, N) when M < 2 * ?ONE -> N;
over_by(M, N) -> over_by(M div 2, N + 1).

-spec rounded(term(), term(), term(), term(), term()) -> tuple().
rounded(S, M, X, P, R) ->
    {Q, Left} = {M div P, M rem P},
    case Left > P div 2 orelse Left == P div 2 andalso (R == 1 orelse Q rem 2 == 1) of
        true -> packed(S, Q + 1, X);
        false -> packed(S, Q, X)
    end.

-spec packed(term(), term(), term()) -> tuple().
packed(S, M, X) when M < ?ONE, X == -1074 -> {'#float', S * M};
packed(S, M, X) when X < 972, M < 2 * ?ONE -> {'#float', S * ((X + 1074) * ?ONE + M)};
packed(S, M, X) when X < 971 -> {'#float', S * ((X + 1075) * ?ONE + M div 2)};
packed(_, _, _) -> erlang:error(badarith).

%% 2^63 has no number above 0.
-spec of_integer(term()) -> tuple().
of_integer(I) when I == -9223372036854775807 - 1 -> {'#float', -1086 * ?ONE};
of_integer(I) when I < 0 -> '-'(made({1, -I, 0, 0}));
of_integer(I) -> made({1, I, 0, 0}).

%% ---- functions of erlang

-spec float(term()) -> tuple().
float({'#float', K}) -> {'#float', K};
float(I) when is_integer(I) -> of_integer(I);
float(_) -> erlang:error(badarg).

-spec abs(term()) -> tuple().
abs({'#float', K}) when K < 0 -> {'#float', -K};
abs({'#float', K}) -> {'#float', K}.

%% The integer below, and whether the float is more: by how much is {Left, Of}.
-spec below(term()) -> tuple().
below(K) when K < 0 ->
    {I, Left, P} = below(-K),
    case Left of
        0 -> {-I, 0, P};
        _ -> {-I - 1, P - Left, P}
    end;
below(K) ->
    {1, M, X} = parts({'#float', K}),
    if
        X > 10 -> prim:raw(exit, {refused, erlang, trunc, 1});
        X >= 0 -> {M * power(X), 0, 1};
        X > -54 -> {M div power(-X), M rem power(-X), power(-X)};
        M == 0 -> {0, 0, 1};
        true -> {0, 1, 4}
    end.

-spec floor(term()) -> term().
floor({'#float', K}) -> element(1, below(K));
floor(I) when is_integer(I) -> I;
floor(_) -> erlang:error(badarg).

-spec ceil(term()) -> term().
ceil({'#float', K}) -> -element(1, below(-K));
ceil(I) when is_integer(I) -> I;
ceil(_) -> erlang:error(badarg).

-spec trunc(term()) -> term().
trunc({'#float', K}) when K < 0 -> -element(1, below(-K));
trunc(F) -> floor(F).

%% Half goes away from 0.
-spec round(term()) -> term().
round({'#float', K}) when K < 0 -> -round({'#float', -K});
round({'#float', K}) ->
    {I, Left, P} = below(K),
    case 2 * Left >= P andalso Left > 0 of
        true -> I + 1;
        false -> I
    end;
round(I) when is_integer(I) -> I;
round(_) -> erlang:error(badarg).

%% ---- order

-spec '<'(term(), term()) -> boolean().
'<'(A, B) -> order(A, B) == -1.

-spec '>'(term(), term()) -> boolean().
'>'(A, B) -> order(A, B) == 1.

-spec '=<'(term(), term()) -> boolean().
'=<'(A, B) -> order(A, B) /= 1.

-spec '>='(term(), term()) -> boolean().
'>='(A, B) -> order(A, B) /= -1.

-spec '=='(term(), term()) -> boolean().
'=='(A, B) -> order(A, B) == 0.

-spec '/='(term(), term()) -> boolean().
'/='(A, B) -> order(A, B) /= 0.

%% -1, 0 or 1: a number is below all else, and numbers go by what they are.
-spec order(term(), term()) -> term().
order({'#float', A}, {'#float', B}) -> plain(A, B);
order({'#float', A}, B) when is_integer(B) -> -against(B, A);
order(A, {'#float', B}) when is_integer(A) -> against(A, B);
order({'#float', _}, _) -> -1;
order(_, {'#float', _}) -> 1;
order([A | As], [B | Bs]) ->
    case order(A, B) of
        0 -> order(As, Bs);
        Other -> Other
    end;
order(A, B) when is_tuple(A), is_tuple(B), tuple_size(A) == tuple_size(B) -> elements(1, tuple_size(A), A, B);
order(A, B) -> plain(A, B).

-spec elements(term(), term(), tuple(), tuple()) -> term().
elements(I, N, _, _) when I > N -> 0;
elements(I, N, A, B) ->
    case order(element(I, A), element(I, B)) of
        0 -> elements(I + 1, N, A, B);
        Other -> Other
    end.

-spec plain(term(), term()) -> term().
plain(A, B) when A < B -> -1;
plain(A, B) when A > B -> 1;
plain(_, _) -> 0.

%% An integer against a float: as floats, unless the integer may be rounded, and then as integers.
-spec against(term(), term()) -> term().
against(I, K) when I =< 2 * ?ONE, I >= -2 * ?ONE ->
    {'#float', Own} = of_integer(I),
    plain(Own, K);
against(_, K) when K >= 1086 * ?ONE -> -1;
against(_, K) when K < -1086 * ?ONE -> 1;
against(I, K) when K == -1086 * ?ONE -> plain(I, -9223372036854775807 - 1);
against(I, K) -> plain(I, trunc({'#float', K})).
