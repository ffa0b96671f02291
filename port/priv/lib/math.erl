%% math as far as its values are exact, or rounded as IEEE 754 says: roots, remainders, whole parts, and powers that a
%% float has. What else a machine's library makes of a number isn't the same everywhere: the process ends as refused,
%% but where the source has the number itself, and Erlang computes it beforehand.
-module(math).
-compile([export_all, nowarn_export_all, {no_auto_import, [ceil/1, floor/1]}]).
-define(ONE, 4503599627370496).

-spec pi() -> tuple().
pi() -> {'#float', 4614256656552045848}.

-spec number(term()) -> term().
number({'#float', K}) -> {'#float', K};
number(I) when is_integer(I) -> pf_float:float(I);
number(_) -> error(badarg).

-spec floor(term()) -> tuple().
floor(X) -> whole(number(X), fun(F) -> pf_float:floor(F) end).

-spec ceil(term()) -> tuple().
ceil(X) -> whole(number(X), fun(F) -> pf_float:ceil(F) end).

-spec whole(tuple(), fun((tuple()) -> integer())) -> tuple().
whole({'#float', K}, _) when K >= 1075 * ?ONE; K =< -1075 * ?ONE -> {'#float', K};
whole(F, Round) -> pf_float:float(Round(F)).

%% two bits of the number make one of the root
-spec sqrt(term()) -> tuple().
sqrt(X) ->
    case number(X) of
        {'#float', K} when K < 0 -> error(badarith);
        {'#float', 0} -> {'#float', 0};
        F ->
            {_, M, E} = pf_float:parts(F),
            {N, Even} = case E rem 2 of 0 -> {M, E}; _ -> {2 * M, E - 1} end,
            {Root, Left} = root(pf_float:power(52), N, 0, 0),
            {Long, Rest} = more(28, Root, Left),
            pf_float:made({1, Long, (Even - 56) div 2, pf_float:rest(Rest)})
    end.

-spec root(integer(), integer(), integer(), integer()) -> {integer(), integer()}.
root(0, _, Root, Left) -> {Root, Left};
root(P, N, Root, Left) ->
    {R, L} = bit(Root, 4 * Left + N div P rem 4),
    root(P div 4, N, R, L).

-spec more(non_neg_integer(), integer(), integer()) -> {integer(), integer()}.
more(0, Root, Left) -> {Root, Left};
more(I, Root, Left) -> {R, L} = bit(Root, 4 * Left), more(I - 1, R, L).

-spec bit(integer(), integer()) -> {integer(), integer()}.
bit(Root, Left) when Left > 4 * Root -> {2 * Root + 1, Left - 4 * Root - 1};
bit(Root, Left) -> {2 * Root, Left}.

%% the sign is that of the first
-spec fmod(term(), term()) -> tuple().
fmod(X, Y) ->
    case {number(X), number(Y)} of
        {_, {'#float', 0}} -> error(badarith);
        {{'#float', 0}, _} -> {'#float', 0};
        {A, B} ->
            {S, M, E} = pf_float:parts(A),
            {_, N, D} = pf_float:parts(B),
            remainder(S, M, E, N, D)
    end.

-spec remainder(term(), term(), term(), term(), term()) -> tuple().
remainder(S, M, E, N, D) when E < D, M < N -> pf_float:made({S, M, E, 0});
remainder(S, M, E, N, D) when E < D -> remainder(S, M, E, 2 * N, D - 1);
remainder(S, M, E, N, E) -> pf_float:made({S, M rem N, E, 0});
remainder(S, M, E, N, D) -> remainder(S, M rem N * 2, E - 1, N, D).

%% a power that a float has
-spec pow(term(), term()) -> tuple().
pow(X, Y) ->
    case {number(X), number(Y)} of
        {_, {'#float', 0}} -> number(1);
        {{'#float', 0}, {'#float', K}} when K < 0 -> error(badarith);
        {{'#float', 0}, _} -> {'#float', 0};
        {A, B} ->
            case A =:= number(1) of
                true -> A;
                false -> {S, M, E} = odd(pf_float:parts(A)), to_power(S, M, E, exponent(B))
            end
    end.

-spec odd(tuple()) -> tuple().
odd({S, M, E}) when M rem 2 =:= 0 -> odd({S, M div 2, E + 1});
odd(Parts) -> Parts.

-spec exponent(tuple()) -> integer().
exponent({'#float', K}) when K < 1075 * ?ONE, K > -1075 * ?ONE ->
    N = pf_float:trunc({'#float', K}),
    case pf_float:float(N) =:= {'#float', K} of
        true -> N;
        false -> prim:raw(exit, {refused, math, pow, 2})
    end;
exponent(_) -> prim:raw(exit, {refused, math, pow, 2}).

-spec to_power(1 | -1, integer(), integer(), integer()) -> tuple().
to_power(S, 1, E, N) -> pf_float:made({signed(S, N), 1, E * N, 0});
to_power(S, M, E, N) when N > 0, N < 34 -> pf_float:made({signed(S, N), times(N, M, 1), E * N, 0});
to_power(_, _, _, _) -> prim:raw(exit, {refused, math, pow, 2}).

-spec signed(1 | -1, integer()) -> 1 | -1.
signed(S, N) -> case N rem 2 of 0 -> 1; _ -> S end.

-spec times(non_neg_integer(), pos_integer(), pos_integer()) -> pos_integer().
times(0, _, P) -> P;
times(N, M, P) when P =< 2 * ?ONE div M -> times(N - 1, M, P * M);
times(_, _, _) -> prim:raw(exit, {refused, math, pow, 2}).

%% whole logarithms
-spec log2(term()) -> tuple().
log2(X) ->
    case above_0(X) of
        F ->
            case odd(pf_float:parts(F)) of
                {1, 1, E} -> number(E);
                _ -> prim:raw(exit, {refused, math, log2, 1})
            end
    end.

-spec log(term()) -> tuple().
log(X) -> case above_0(X) =:= number(1) of true -> number(0); false -> prim:raw(exit, {refused, math, log, 1}) end.

-spec log10(term()) -> tuple().
log10(X) -> case above_0(X) =:= number(1) of true -> number(0); false -> prim:raw(exit, {refused, math, log10, 1}) end.

-spec above_0(term()) -> tuple().
above_0(X) ->
    case number(X) of
        {'#float', K} when K =< 0 -> error(badarith);
        F -> F
    end.

-spec exp(term()) -> tuple().
exp(X) -> case number(X) of {'#float', 0} -> number(1); _ -> prim:raw(exit, {refused, math, exp, 1}) end.

-spec sin(term()) -> tuple().
sin(X) -> case number(X) of {'#float', 0} -> number(0); _ -> prim:raw(exit, {refused, math, sin, 1}) end.

-spec cos(term()) -> tuple().
cos(X) -> case number(X) of {'#float', 0} -> number(1); _ -> prim:raw(exit, {refused, math, cos, 1}) end.

-spec tan(term()) -> tuple().
tan(X) -> case number(X) of {'#float', 0} -> number(0); _ -> prim:raw(exit, {refused, math, tan, 1}) end.

-spec atan(term()) -> tuple().
atan(X) -> case number(X) of {'#float', 0} -> number(0); _ -> prim:raw(exit, {refused, math, atan, 1}) end.
