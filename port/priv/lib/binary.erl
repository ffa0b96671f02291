%% Binaries looked into, taken apart and put together. Without scopes, places of what is inserted, and funs that replace.
-module(binary).
-compile([export_all, nowarn_export_all]).

-spec at(term(), term()) -> byte().
at({'#bin', B}, I) when is_integer(I), I >= 0, I < length(B) -> lists:nth(I + 1, B);
at(_, _) -> error(badarg).

-spec first(term()) -> byte().
first({'#bin', [H | _]}) -> H;
first(_) -> error(badarg).

-spec last(term()) -> byte().
last({'#bin', [H | T]}) -> lists:last([H | T]);
last(_) -> error(badarg).

-spec part(term(), term()) -> tuple().
part(B, P) -> erlang:binary_part(B, P).

-spec part(term(), term(), term()) -> tuple().
part(B, S, N) -> erlang:binary_part(B, S, N).

-spec copy(term()) -> tuple().
copy(B) -> copy(B, 1).

-spec copy(term(), term()) -> tuple().
copy({'#bin', B}, N) when is_integer(N), N >= 0 -> {'#bin', lists:append(lists:duplicate(N, B))};
copy(_, _) -> error(badarg).

-spec bin_to_list(term()) -> list().
bin_to_list(B) -> erlang:binary_to_list(B).

-spec bin_to_list(term(), term()) -> list().
bin_to_list(B, P) -> erlang:binary_to_list(part(B, P)).

-spec bin_to_list(term(), term(), term()) -> list().
bin_to_list(B, S, N) -> erlang:binary_to_list(part(B, S, N)).

-spec list_to_bin(term()) -> tuple().
list_to_bin(L) -> erlang:list_to_binary(L).

-spec encode_unsigned(term()) -> tuple().
encode_unsigned(0) -> {'#bin', [0]};
encode_unsigned(I) when is_integer(I), I > 0 -> {'#bin', high_first(I, [])};
encode_unsigned(_) -> error(badarg).

-spec encode_unsigned(term(), term()) -> tuple().
encode_unsigned(I, big) -> encode_unsigned(I);
encode_unsigned(I, little) -> {'#bin', B} = encode_unsigned(I), {'#bin', lists:reverse(B)};
encode_unsigned(_, _) -> error(badarg).

-spec high_first(non_neg_integer(), list()) -> list().
high_first(0, B) -> B;
high_first(I, B) -> high_first(I div 256, [I rem 256 | B]).

-spec decode_unsigned(term()) -> non_neg_integer().
decode_unsigned({'#bin', B}) -> lists:foldl(fun(Byte, I) -> I * 256 + Byte end, 0, B);
decode_unsigned(_) -> error(badarg).

-spec decode_unsigned(term(), term()) -> non_neg_integer().
decode_unsigned(B, big) -> decode_unsigned(B);
decode_unsigned({'#bin', B}, little) -> decode_unsigned({'#bin', lists:reverse(B)});
decode_unsigned(_, _) -> error(badarg).

-spec compile_pattern(term()) -> term().
compile_pattern(P) -> _ = patterns(P), P.

-spec referenced_byte_size(term()) -> non_neg_integer().
referenced_byte_size(B) -> erlang:byte_size(B).

%% the patterns as lists of bytes, each of one byte at least
-spec patterns(term()) -> [list()].
patterns({'#bin', [H | T]}) -> [[H | T]];
patterns([P | Ps]) -> [pattern(X) || X <- [P | Ps]];
patterns(_) -> error(badarg).

%% in an empty binary none is looked for
-spec patterns_for(list(), term()) -> [list()].
patterns_for([], _) -> [];
patterns_for(_, P) -> patterns(P).

-spec pattern(term()) -> list().
pattern({'#bin', [H | T]}) -> [H | T];
pattern(_) -> error(badarg).

-spec match(term(), term()) -> {non_neg_integer(), pos_integer()} | nomatch.
match({'#bin', []}, _) -> nomatch;
match({'#bin', B}, P) -> found(B, patterns(P), 0);
match(_, _) -> error(badarg).

-spec match(term(), term(), list()) -> {non_neg_integer(), pos_integer()} | nomatch.
match(B, P, []) -> match(B, P);
match(_, _, _) -> prim:raw(exit, {refused, binary, match, 3}).

-spec matches(term(), term()) -> list().
matches({'#bin', []}, _) -> [];
matches({'#bin', B}, P) -> all(B, patterns(P), 0);
matches(_, _) -> error(badarg).

-spec matches(term(), term(), list()) -> list().
matches(B, P, []) -> matches(B, P);
matches(_, _, _) -> prim:raw(exit, {refused, binary, matches, 3}).

-spec all(list(), [list()], non_neg_integer()) -> list().
all(B, Ps, At) ->
    case found(B, Ps, 0) of
        nomatch -> [];
        {I, N} -> [{At + I, N} | all(lists:nthtail(I + N, B), Ps, At + I + N)]
    end.

%% the first place, and there the longest pattern
-spec found(list(), [list()], non_neg_integer()) -> {non_neg_integer(), pos_integer()} | nomatch.
found([], _, _) -> nomatch;
found([H | T], Ps, I) ->
    case longest(Ps, [H | T], 0) of
        0 -> found(T, Ps, I + 1);
        N -> {I, N}
    end.

-spec longest([list()], list(), non_neg_integer()) -> non_neg_integer().
longest([], _, N) -> N;
longest([P | Ps], B, N) ->
    case length(P) > N andalso lists:prefix(P, B) of
        true -> longest(Ps, B, length(P));
        false -> longest(Ps, B, N)
    end.

-spec split(term(), term()) -> list().
split(B, P) -> split(B, P, []).

-spec split(term(), term(), term()) -> list().
split({'#bin', B}, P, Options) ->
    known(Options, [global, trim, trim_all]),
    Parts = parted(B, patterns_for(B, P), lists:member(global, Options)),
    [{'#bin', Part} || Part <- trimmed(Parts, lists:member(trim, Options), lists:member(trim_all, Options))];
split(_, _, _) -> error(badarg).

-spec known(term(), [atom()]) -> ok.
known([], _) -> ok;
known([{scope, _} | _], _) -> prim:raw(exit, {refused, binary, split, 3});
known([{insert_replaced, _} | _], _) -> prim:raw(exit, {refused, binary, replace, 4});
known([O | Options], All) -> case lists:member(O, All) of true -> known(Options, All); false -> error(badarg) end;
known(_, _) -> error(badarg).

-spec parted(list(), [list()], boolean()) -> [list()].
parted(B, Ps, Global) ->
    case found(B, Ps, 0) of
        nomatch -> [B];
        {I, N} when Global -> [lists:sublist(B, I) | parted(lists:nthtail(I + N, B), Ps, true)];
        {I, N} -> [lists:sublist(B, I), lists:nthtail(I + N, B)]
    end.

-spec trimmed([list()], boolean(), boolean()) -> [list()].
trimmed(Parts, _, true) -> [Part || Part <- Parts, Part =/= []];
trimmed(Parts, true, _) -> lists:reverse(lists:dropwhile(fun(Part) -> Part =:= [] end, lists:reverse(Parts)));
trimmed(Parts, _, _) -> Parts.

-spec replace(term(), term(), term()) -> tuple().
replace(B, P, R) -> replace(B, P, R, []).

-spec replace(term(), term(), term(), term()) -> tuple().
replace(B, P, R, Options) -> replaced(B, P, R, Options).

-spec replaced(term(), term(), term(), term()) -> tuple().
replaced({'#bin', B}, P, {'#bin', R}, Options) ->
    known(Options, [global]),
    {'#bin', lists:append(lists:join(R, parted(B, patterns_for(B, P), lists:member(global, Options))))};
replaced(_, _, F, _) when is_function(F) -> prim:raw(exit, {refused, binary, replace, 4});
replaced(_, _, _, _) -> error(badarg).

-spec longest_common_prefix(term()) -> non_neg_integer().
longest_common_prefix([B | Bs]) -> common([erlang:binary_to_list(X) || X <- [B | Bs]], 0);
longest_common_prefix(_) -> error(badarg).

-spec longest_common_suffix(term()) -> non_neg_integer().
longest_common_suffix([B | Bs]) -> common([lists:reverse(erlang:binary_to_list(X)) || X <- [B | Bs]], 0);
longest_common_suffix(_) -> error(badarg).

-spec common([list()], non_neg_integer()) -> non_neg_integer().
common([[] | _], N) -> N;
common([[H | _] | _] = Ls, N) ->
    case lists:all(fun(L) -> L =/= [] andalso hd(L) =:= H end, Ls) of
        true -> common([tl(L) || L <- Ls], N + 1);
        false -> N
    end.
