%% The room of tables, in words of 64 bits: 305 of an empty one, 139 of an ordered one, and of each object its term
%% and 4, or 5 in an ordered table; as on Erlang up to 256 objects, without options for concurrency and compression.
-module(pf_room).
-compile([export_all, nowarn_export_all]).
-spec memory(atom(), list()) -> pos_integer().
memory(ordered_set, Objects) -> 139 + lists:sum([5 + words(X) || X <- Objects]);
memory(_, Objects) -> 305 + lists:sum([4 + words(X) || X <- Objects]).

-spec words(term()) -> non_neg_integer().
words([X | Xs]) -> 2 + words(X) + words(Xs);
words({'#map', []}) -> 3;
words({'#map', L}) -> 4 + 2 * length(L) + lists:sum([words(K) + words(V) || {K, V} <- L]);
words({'#float', _}) -> 2;
words({'#bin', B}) -> case length(B) of N when N > 64 -> 6; N -> 2 + (N + 7) div 8 end;
words(F) when is_function(F) -> 5;
words(R) when is_reference(R) -> 3;
words(I) when is_integer(I), I >= 576460752303423488; is_integer(I), I < -576460752303423488 -> 2;
words({}) -> 0;
words(T) when is_tuple(T) -> 1 + lists:sum([1 + words(X) || X <- tuple_to_list(T)]);
words(_) -> 0.

%% binaries of over 64 bytes, which other terms may share
-spec large(term()) -> [{non_neg_integer(), pos_integer(), pos_integer()}].
large({'#bin', B}) -> case length(B) of N when N > 64 -> [{0, N, 1}]; _ -> [] end;
large({'#float', _}) -> [];
large(F) when is_function(F) -> [];
large({'#map', L}) -> large(L);
large([X | Xs]) -> large(X) ++ large(Xs);
large(T) when is_tuple(T) -> large(tuple_to_list(T));
large(_) -> [].
