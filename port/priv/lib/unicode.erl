%% Characters of lists and binaries, in UTF-8 and Latin-1. What is no text of these ends the process as refused.
-module(unicode).
-compile([export_all, nowarn_export_all]).

-spec characters_to_list(term()) -> list().
characters_to_list(L) -> characters(L, utf8).

-spec characters_to_list(term(), term()) -> list().
characters_to_list(L, In) -> characters(L, coding(In)).

-spec characters_to_binary(term()) -> tuple().
characters_to_binary(L) -> {'#bin', bytes(utf8, characters(L, utf8))}.

-spec characters_to_binary(term(), term()) -> tuple().
characters_to_binary(L, In) -> {'#bin', bytes(utf8, characters(L, coding(In)))}.

-spec characters_to_binary(term(), term(), term()) -> tuple().
characters_to_binary(L, In, Out) -> {'#bin', bytes(coding(Out), characters(L, coding(In)))}.

-spec coding(term()) -> utf8 | latin1.
coding(utf8) -> utf8;
coding(unicode) -> utf8;
coding(latin1) -> latin1;
coding(_) -> prim:raw(exit, {refused, unicode, characters_to_list, 2}).

-spec characters(term(), utf8 | latin1) -> list().
characters([], _) -> [];
characters([C | T], In) when is_integer(C) -> [known(C, In) | characters(T, In)];
characters([L | T], In) -> characters(L, In) ++ characters(T, In);
characters({'#bin', B}, latin1) -> B;
characters({'#bin', B}, utf8) -> decoded(B);
characters(_, _) -> error(badarg).

-spec known(integer(), utf8 | latin1) -> integer().
known(C, latin1) when C >= 0, C < 256 -> C;
known(C, utf8) when C >= 0, C < 55296 -> C;
known(C, utf8) when C >= 57344, C < 1114112 -> C;
known(_, _) -> prim:raw(exit, {refused, unicode, characters_to_list, 1}).

-spec decoded(list()) -> list().
decoded([]) -> [];
decoded([C | T]) when C < 128 -> [C | decoded(T)];
decoded(B) ->
    case pf_bits:match({'#bin', B}, [{6, 0}, {7, 0}]) of
        {ok, [C, {'#bin', Rest}]} -> [C | decoded(Rest)];
        false -> prim:raw(exit, {refused, unicode, characters_to_list, 1})
    end.

-spec bytes(utf8 | latin1, list()) -> list().
bytes(_, []) -> [];
bytes(utf8, [C | T]) -> pf_bits:utf8(C) ++ bytes(utf8, T);
bytes(latin1, [C | T]) when C < 256 -> [C | bytes(latin1, T)];
bytes(latin1, _) -> prim:raw(exit, {refused, unicode, characters_to_binary, 3}).
