%% Of module string what goes by graphemes: here a character is a code point, upper and lower case are those of ASCII, and a text is a flat
%% list or a binary. The other functions are OTP's own.
-module(string).
-export([length/1, is_empty/1, equal/2, reverse/1, trim/1, trim/2, trim/3, split/2, split/3, uppercase/1, lowercase/1, find/2, prefix/2,
         slice/2, slice/3, lexemes/2, replace/3, replace/4, to_graphemes/1]).
-compile({no_auto_import, [length/1]}).

-spec length(list() | tuple()) -> non_neg_integer().
length(Text) -> erlang:length(characters(Text)).

-spec is_empty(list() | tuple()) -> boolean().
is_empty(Text) -> characters(Text) =:= [].

-spec equal(list() | tuple(), list() | tuple()) -> boolean().
equal(A, B) -> characters(A) =:= characters(B).

-spec reverse(list() | tuple()) -> list().
reverse(Text) -> lists:reverse(characters(Text)).

-spec to_graphemes(list() | tuple()) -> list().
to_graphemes(Text) -> characters(Text).

-spec trim(Text) -> Text when Text :: list() | tuple().
trim(Text) -> trim(Text, both).

-spec trim(Text, leading | trailing | both) -> Text when Text :: list() | tuple().
trim(Text, Side) -> trim(Text, Side, [9, 10, 11, 12, 13, 32, 133, 8206, 8207, 8232, 8233]).

-spec trim(Text, leading | trailing | both, list()) -> Text when Text :: list() | tuple().
trim(Text, leading, Blanks) -> as(Text, without(characters(Text), Blanks));
trim(Text, trailing, Blanks) -> as(Text, lists:reverse(without(lists:reverse(characters(Text)), Blanks)));
trim(Text, both, Blanks) -> trim(trim(Text, leading, Blanks), trailing, Blanks).

-spec without(list(), list()) -> list().
without([C | Rest] = Characters, Blanks) ->
    case lists:member(C, Blanks) of
        true -> without(Rest, Blanks);
        false -> Characters
    end;
without([], _) -> [].

-spec split(Text, list() | tuple()) -> [Text] when Text :: list() | tuple().
split(Text, Pattern) -> split(Text, Pattern, leading).

-spec split(Text, list() | tuple(), leading | trailing | all) -> [Text] when Text :: list() | tuple().
split(Text, Pattern, Where) ->
    case {characters(Pattern), Where} of
        {[], _} -> [Text];
        {Wanted, trailing} -> [as(Text, lists:reverse(Part)) || Part <- lists:reverse(parts(lists:reverse(characters(Text)), lists:reverse(Wanted), leading, []))];
        {Wanted, _} -> [as(Text, Part) || Part <- parts(characters(Text), Wanted, Where, [])]
    end.

%% The parts of a text, up to the first pattern or all.
-spec parts(list(), list(), leading | all, list()) -> [list()].
parts([], _, _, Before) -> [lists:reverse(Before)];
parts([C | Rest] = Characters, Pattern, Where, Before) ->
    case after_prefix(Characters, Pattern) of
        no -> parts(Rest, Pattern, Where, [C | Before]);
        After when Where =:= all -> [lists:reverse(Before) | parts(After, Pattern, all, [])];
        After -> [lists:reverse(Before), After]
    end.

-spec after_prefix(list(), list()) -> list() | no.
after_prefix(Rest, []) -> Rest;
after_prefix([C | Rest], [C | Pattern]) -> after_prefix(Rest, Pattern);
after_prefix(_, _) -> no.

-spec replace(Text, list() | tuple(), list() | tuple()) -> list() when Text :: list() | tuple().
replace(Text, Pattern, New) -> replace(Text, Pattern, New, leading).

-spec replace(Text, list() | tuple(), list() | tuple(), leading | trailing | all) -> list() when Text :: list() | tuple().
replace(Text, Pattern, New, Where) -> lists:join(New, split(Text, Pattern, Where)).

-spec find(Text, list() | tuple()) -> Text | nomatch when Text :: list() | tuple().
find(Text, Pattern) ->
    case found(characters(Text), characters(Pattern)) of
        nomatch -> nomatch;
        Rest -> as(Text, Rest)
    end.

-spec found(list(), list()) -> list() | nomatch.
found(Characters, Pattern) ->
    case {after_prefix(Characters, Pattern), Characters} of
        {no, []} -> nomatch;
        {no, [_ | Rest]} -> found(Rest, Pattern);
        _ -> Characters
    end.

-spec prefix(Text, list() | tuple()) -> Text | nomatch when Text :: list() | tuple().
prefix(Text, Pattern) ->
    case after_prefix(characters(Text), characters(Pattern)) of
        no -> nomatch;
        Rest -> as(Text, Rest)
    end.

-spec slice(Text, non_neg_integer()) -> Text when Text :: list() | tuple().
slice(Text, Start) -> as(Text, dropped(Start, characters(Text))).

-spec slice(Text, non_neg_integer(), non_neg_integer() | infinity) -> Text when Text :: list() | tuple().
slice(Text, Start, infinity) -> slice(Text, Start);
slice(Text, Start, Number) -> as(Text, lists:sublist(dropped(Start, characters(Text)), Number)).

-spec dropped(non_neg_integer(), list()) -> list().
dropped(0, Characters) -> Characters;
dropped(_, []) -> [];
dropped(N, [_ | Rest]) -> dropped(N - 1, Rest).

-spec lexemes(Text, list()) -> [Text] when Text :: list() | tuple().
lexemes(Text, Separators) -> [as(Text, Lexeme) || Lexeme <- lexemes(characters(Text), Separators, [])].

-spec lexemes(list(), list(), list()) -> [list()].
lexemes([], _, []) -> [];
lexemes([], _, Before) -> [lists:reverse(Before)];
lexemes([C | Rest], Separators, Before) ->
    case {lists:member(C, Separators), Before} of
        {true, []} -> lexemes(Rest, Separators, []);
        {true, _} -> [lists:reverse(Before) | lexemes(Rest, Separators, [])];
        {false, _} -> lexemes(Rest, Separators, [C | Before])
    end.

-spec uppercase(Text) -> Text when Text :: list() | tuple().
uppercase(Text) -> as(Text, [case C >= $a andalso C =< $z of true -> C - 32; false -> C end || C <- characters(Text)]).

-spec lowercase(Text) -> Text when Text :: list() | tuple().
lowercase(Text) -> as(Text, [case C >= $A andalso C =< $Z of true -> C + 32; false -> C end || C <- characters(Text)]).

%% The characters of a text, and characters as the kind of text that another is.
-spec characters(list() | tuple()) -> list().
characters({'#bin', Bytes}) -> Bytes;
characters(Text) when is_list(Text) -> Text;
characters(_) -> error(badarg).

-spec as(list() | tuple(), list()) -> list() | tuple().
as({'#bin', _}, Characters) -> {'#bin', Characters};
as(_, Characters) -> Characters.
