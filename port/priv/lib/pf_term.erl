%% Terms as binaries, in the external format of Erlang, and back. Pids, references and funs are refused.
-module(pf_term).
-compile([export_all, nowarn_export_all]).

-spec to_binary(term()) -> tuple().
to_binary(T) -> {'#bin', [131 | bytes(T)]}.

-spec to_binary(term(), list()) -> tuple().
to_binary(T, []) -> to_binary(T);
to_binary(T, [{minor_version, 1} | Options]) -> to_binary(T, Options);
to_binary(_, _) -> prim:raw(exit, {refused, erlang, term_to_binary, 2}).

-spec bytes(term()) -> list().
bytes(I) when is_integer(I), I >= 0, I < 256 -> [97, I];
bytes(I) when is_integer(I), I >= -2147483648, I < 2147483648 -> [98 | four((I + 4294967296) rem 4294967296)];
bytes(I) when is_integer(I), I < 0 -> large(1, low_first(-I));
bytes(I) when is_integer(I) -> large(0, low_first(I));
bytes(A) when is_atom(A) -> L = atom_to_list(A), [100 | two(length(L))] ++ L;
bytes([]) -> [106];
bytes(L) when is_list(L) ->
    case is_text(L, 0) of
        true -> [107 | two(length(L))] ++ L;
        false -> [108 | four(length(L))] ++ all(L) ++ [106]
    end;
bytes({'#float', K}) when K < 0 -> [H | T] = eight(-K), [70, H + 128 | T];
bytes({'#float', K}) -> [70 | eight(K)];
bytes({'#bin', B}) -> [109 | four(length(B))] ++ B;
bytes({'#map', L}) when length(L) =< 32 -> [116 | four(length(L))] ++ pairs(L);
bytes(T) when is_tuple(T), tuple_size(T) < 256, not is_function(T) -> [104, tuple_size(T) | all(tuple_to_list(T))];
bytes(_) -> prim:raw(exit, {refused, erlang, term_to_binary, 1}).

-spec all(list()) -> list().
all([]) -> [];
all([X | T]) -> bytes(X) ++ all(T).

-spec pairs(list()) -> list().
pairs([]) -> [];
pairs([{K, V} | T]) -> bytes(K) ++ bytes(V) ++ pairs(T).

-spec is_text(list(), non_neg_integer()) -> boolean().
is_text([], _) -> true;
is_text([C | T], N) when is_integer(C), C >= 0, C < 256, N < 65535 -> is_text(T, N + 1);
is_text(_, _) -> false.

-spec large(0 | 1, list()) -> list().
large(Sign, Bytes) -> [110, length(Bytes), Sign | Bytes].

-spec low_first(non_neg_integer()) -> list().
low_first(0) -> [];
low_first(I) -> [I rem 256 | low_first(I div 256)].

-spec two(non_neg_integer()) -> list().
two(N) -> [N div 256, N rem 256].

-spec four(non_neg_integer()) -> list().
four(N) -> two(N div 65536) ++ two(N rem 65536).

-spec eight(non_neg_integer()) -> list().
eight(N) -> four(N div 4294967296) ++ four(N rem 4294967296).

%% ---- and back

-spec from_binary(term()) -> term().
from_binary({'#bin', [131 | B]}) -> {T, _} = term(B), T;
from_binary(_) -> error(badarg).

-spec from_binary(term(), list()) -> term().
from_binary(B, []) -> from_binary(B);
from_binary(B, [safe | Options]) -> from_binary(B, Options);
from_binary(_, _) -> prim:raw(exit, {refused, erlang, binary_to_term, 2}).

-spec term(list()) -> {term(), list()}.
term([97, I | B]) -> {I, B};
term([98, A, C, D, E | B]) when A < 128 -> {number([A, C, D, E], 0), B};
term([98, A, C, D, E | B]) -> {number([A, C, D, E], 0) - 4294967296, B};
term([110, N, Sign | B]) ->
    {Bytes, Rest} = taken(N, B),
    {signed(Sign, number(lists:reverse(Bytes), 0)), Rest};
term([Tag, H, L | B]) when Tag =:= 100; Tag =:= 118 -> atom(H * 256 + L, B);
term([Tag, N | B]) when Tag =:= 115; Tag =:= 119 -> atom(N, B);
term([106 | B]) -> {[], B};
term([107, H, L | B]) -> taken(H * 256 + L, B);
term([108, A, C, D, E | B]) ->
    {L, Rest} = several(number([A, C, D, E], 0), B),
    {[], Left} = term(Rest),
    {L, Left};
term([70, H, C, D, E | B]) ->
    {Low, Rest} = taken(4, B),
    {{'#float', signed(H div 128, number([H rem 128, C, D, E | Low], 0))}, Rest};
term([109, A, C, D, E | B]) ->
    {Bytes, Rest} = taken(number([A, C, D, E], 0), B),
    {{'#bin', Bytes}, Rest};
term([116, A, C, D, E | B]) ->
    {L, Rest} = several(2 * number([A, C, D, E], 0), B),
    {maps:from_list(in_pairs(L)), Rest};
term([104, N | B]) ->
    {L, Rest} = several(N, B),
    {list_to_tuple(L), Rest};
term([Tag | _]) when Tag =:= 80; Tag =:= 99; Tag =:= 88; Tag =:= 90; Tag =:= 103; Tag =:= 105; Tag =:= 111; Tag =:= 112; Tag =:= 113 ->
    prim:raw(exit, {refused, erlang, binary_to_term, 1});
term(_) -> error(badarg).

-spec number(list(), integer()) -> integer().
number([], N) -> N;
number([H | T], N) -> number(T, 256 * N + H).

-spec signed(0 | 1, integer()) -> integer().
signed(1, N) -> -N;
signed(_, N) -> N.

-spec taken(non_neg_integer(), list()) -> {list(), list()}.
taken(0, B) -> {[], B};
taken(N, [H | T]) -> {Bytes, Rest} = taken(N - 1, T), {[H | Bytes], Rest};
taken(_, []) -> error(badarg).

%% the atoms in a binary are those that the program made it of; another one ends the process as refused
-spec atom(non_neg_integer(), list()) -> {atom(), list()}.
atom(N, B) ->
    {Text, Rest} = taken(N, B),
    {try list_to_existing_atom(Text) catch error:badarg -> prim:raw(exit, {refused, erlang, binary_to_term, 1}) end, Rest}.

-spec several(non_neg_integer(), list()) -> {list(), list()}.
several(0, B) -> {[], B};
several(N, B) ->
    {T, Rest} = term(B),
    {Ts, Left} = several(N - 1, Rest),
    {[T | Ts], Left}.

-spec in_pairs(list()) -> list().
in_pairs([]) -> [];
in_pairs([K, V | T]) -> [{K, V} | in_pairs(T)].
