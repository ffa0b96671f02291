%% The layout of ~p and ~P, after OTP 25: a term is on one line where that fits, and else its parts are below each
%% other.
%% A shape is {What, Length}: the text of what is never broken, or parts, and how long it is on one line.
-module(pf_pretty).
-compile([export_all, nowarn_export_all]).
%% A term from a column on, of lines of a length (0 where there is one line alone), to a depth (below 0 where there is
%% none); texts are lists that look like one, but with `plain'.
-spec print(term(), integer(), integer(), integer(), texts | plain) -> string().
print(_, _, _, 0, _) -> "...";
print(T, Column, Line, D, Texts) ->
    {What, Length} = Shape = shape(T, D, Texts),
    Col = max(Column, 1),
    case is_list(What) orelse Line =:= 0 orelse Length < Line - Col of
        true -> line(Shape);
        false -> below(Shape, Col, {Line, Length, indentation(Shape, Col, Line)}, 0, 0)
    end.

%% ---- shapes

-spec shape(term(), integer(), texts | plain) -> tuple().
shape([], _, _) -> {"[]", 2};
shape(L, D, Texts) when is_list(L) ->
    case Texts =:= texts andalso D =/= 1 andalso pf_format:printable_list(L) of
        true -> text(pf_format:quoted(L, $"));
        false -> whole(list, parts(L, D, Texts), 2)
    end;
shape({'#float', K}, D, _) -> text(pf_format:write({'#float', K}, D));
shape(F, D, _) when is_function(F) -> text(pf_format:write(F, D));
shape({'#map', []}, _, _) -> {"#{}", 3};
shape({'#map', _}, 1, _) -> {"#{...}", 6};
shape({'#map', L}, D, Texts) -> whole(map, pairs(L, D, D - 1, Texts), 3);
shape({'#bin', []}, _, _) -> {"<<>>", 4};
shape({'#bin', _}, 1, _) -> {"<<...>>", 7};
shape({'#bin', B}, D, texts) -> binary(B, D, length(B), seen(D - 1, length(B)));
shape({'#bin', B}, D, plain) -> bytes(B, D);
shape({}, _, _) -> {"{}", 2};
shape(T, 1, _) when is_tuple(T) -> {"{...}", 5};
shape(T, D, Texts) when is_tuple(T) ->
    Kind = case is_atom(element(1, T)) andalso tuple_size(T) > 1 of true -> tagged; false -> tuple end,
    whole(Kind, parts(tuple_to_list(T), D, Texts), 2);
shape(T, _, _) -> text(pf_format:write(T, -1)).

-spec text(string()) -> {string(), non_neg_integer()}.
text(S) -> {S, length(S)}.

-spec whole(atom(), list(), non_neg_integer()) -> tuple().
whole(Kind, Parts, Around) -> {{Kind, Parts}, Around - 1 + lists:sum([Length + 1 || {_, Length} <- Parts])}.

%% what is deeper is dots
-spec parts(list(), integer(), texts | plain) -> list().
parts([], _, _) -> [];
parts(_, 1, _) -> [{dots, 3}];
parts([X | Xs], D, Texts) -> [shape(X, D - 1, Texts) | parts(Xs, D - 1, Texts)].

-spec pairs(list(), integer(), integer(), texts | plain) -> list().
pairs([], _, _, _) -> [];
pairs(_, 1, _, _) -> [{dots, 3}];
pairs([{K, V} | Pairs], D, Each, Texts) ->
    {_, KeyLength} = Key = shape(K, Each, Texts),
    {_, Length} = Value = shape(V, Each, Texts),
    [{{pair, Key, Value}, KeyLength + 4 + Length} | pairs(Pairs, D - 1, Each, Texts)].

%% how many bytes of a binary a depth looks at, and how many of these at its beginning are characters
-spec seen(integer(), non_neg_integer()) -> non_neg_integer().
seen(D, Size) when D >= 0 -> min(4 * D, Size);
seen(_, Size) -> Size.

-spec characters(list(), non_neg_integer(), non_neg_integer()) -> non_neg_integer().
characters([C | Cs], Most, N) when N < Most ->
    case pf_format:printable_list([C]) of
        true -> characters(Cs, Most, N + 1);
        false -> N
    end;
characters(_, _, N) -> N.

-spec binary([byte()], integer(), pos_integer(), pos_integer()) -> tuple().
binary(B, D, Size, Most) ->
    case characters(B, Most, 0) of
        Size -> text("<<" ++ pf_format:quoted(B, $") ++ ">>");
        N when D > 1, N >= D - 1 -> text("<<" ++ pf_format:quoted(lists:sublist(B, N), $") ++ "...>>");
        _ -> bytes(B, D)
    end.

-spec bytes([byte()], integer()) -> tuple().
bytes(B, D) ->
    Texts = bytes_of(B, D),
    {{bin, Texts}, 3 + lists:sum([length(S) + 1 || S <- Texts])}.

-spec bytes_of([byte()], integer()) -> [string()].
bytes_of([], _) -> [];
bytes_of(_, 1) -> ["..."];
bytes_of([B | Bs], D) -> [integer_to_list(B) | bytes_of(Bs, D - 1)].

%% ---- on one line

-spec line(tuple()) -> string().
line({{list, Parts}, _}) -> "[" ++ lines(Parts, "|") ++ "]";
line({{map, Pairs}, _}) -> "#{" ++ lines(Pairs, ",") ++ "}";
line({{pair, K, V}, _}) -> line(K) ++ " => " ++ line(V);
line({{bin, Texts}, _}) -> "<<" ++ lines([{S, 0} || S <- Texts], ",") ++ ">>";
line({{_, Parts}, _}) -> "{" ++ lines(Parts, ",") ++ "}";
line({dots, _}) -> "...";
line({S, _}) -> S.

-spec lines(list(), string()) -> string().
lines([E], _) -> line(E);
lines([E, {dots, _}], Bar) -> line(E) ++ Bar ++ "...";
lines([E | Es], Bar) -> line(E) ++ "," ++ lines(Es, Bar).

%% ---- on several lines

%% From a column on, after W characters of the same line and before the ends of what is around it. A layout is how long
%% a line is, how long the whole is on one line, and how far what comes after a long tag is indented.
-spec below(tuple(), integer(), tuple(), integer(), integer()) -> string().
below({_, Length} = E, Col, {Line, _, _}, Ends, _) when Length < Line - Col - Ends -> line(E);
below({{list, Parts}, _}, Col, Layout, Ends, W) -> "[" ++ first(Parts, Col + 1, Layout, Ends, W + 1, "|") ++ "]";
below({{map, Pairs}, _}, Col, Layout, Ends, W) -> "#{" ++ first(Pairs, Col + 2, Layout, Ends, W + 1, ",") ++ "}";
below({{pair, K, V}, _}, Col, Layout, Ends, W) ->
    At = Col + under_key(Layout),
    below(K, Col, Layout, Ends, W) ++ " =>" ++ new_line(At) ++ below(V, At, Layout, Ends, 0);
below({{bin, Texts}, _}, Col, {Line, Length, _}, Ends, W) ->
    Room = max(8, min(Line - Col - 2, Length - 4 - W) - Ends),
    "<<" ++ rows(Texts, Room, Room, Col + 2) ++ ">>";
below({{tagged, [{Tag, N} | Parts]}, _}, Col, {_, _, I} = Layout, Ends, _) when I > 0, N + 2 > I ->
    "{" ++ Tag ++ rest(placed(Parts, Col + I, Col + N + 2, Layout, Ends), Col + I, Layout, ",") ++ "}";
below({{tagged, [{Tag, N} | Parts]}, _}, Col, Layout, Ends, W) ->
    "{" ++ Tag ++ "," ++ first(Parts, Col + N + 2, Layout, Ends, W + N + 2, ",") ++ "}";
below({{tuple, Parts}, _}, Col, Layout, Ends, W) -> "{" ++ first(Parts, Col + 1, Layout, Ends, W + 1, ",") ++ "}";
below({S, _}, _, _, _, _) -> S.

%% the first part is where the others begin
-spec first(list(), integer(), tuple(), integer(), integer(), string()) -> string().
first([{dots, _}], _, _, _, _, _) -> "...";
first([E | Es], Col, Layout, Ends, W, Bar) ->
    Last = ends(Es, Ends),
    Rest = placed(Es, Col, Col + width(E, Col, Layout, Last), Layout, Ends),
    below(E, Col, Layout, Last, W) ++ rest(Rest, Col, Layout, Bar).

-spec rest(list(), integer(), tuple(), string()) -> string().
rest([], _, _, _) -> "";
rest([dots], _, _, Bar) -> Bar ++ "...";
rest([{beside, E} | Placed], Col, Layout, Bar) -> "," ++ line(E) ++ rest(Placed, Col, Layout, Bar);
rest([{below, E, Ends} | Placed], Col, Layout, Bar) ->
    "," ++ new_line(Col) ++ below(E, Col, Layout, Ends, 0) ++ rest(Placed, Col, Layout, Bar).

%% Where parts are that come after another, which ends at a column: text that fits is beside it, all else is below the
%% first.
-spec placed(list(), integer(), integer(), tuple(), integer()) -> list().
placed([], _, _, _, _) -> [];
placed([{dots, _}], _, _, _, _) -> [dots];
placed([{_, Length} = E | Es], Start, Col, {Line, _, _} = Layout, Ends) ->
    Last = ends(Es, Ends),
    case is_text(E) andalso Length + 1 + max(1, Last) < Line - Col of
        true -> [{beside, E} | placed(Es, Start, Col + 1 + Length, Layout, Ends)];
        false -> [{below, E, Last} | placed(Es, Start, Start + width(E, Start, Layout, Last), Layout, Ends)]
    end.

%% after parts there is a comma, after the last one the ends of what is around it
-spec ends(list(), integer()) -> integer().
ends([], Ends) -> Ends + 1;
ends([{dots, _}], Ends) -> Ends + 1;
ends(_, _) -> 0.

%% nothing comes beside what isn't text
-spec width(tuple(), integer(), tuple(), integer()) -> integer().
width({_, Length} = E, Col, {Line, _, _}, Ends) ->
    case Length < Line - Col - Ends andalso is_text(E) of true -> Length; false -> Line end.

-spec is_text(tuple()) -> boolean().
is_text({{pair, {K, _}, {V, _}}, _}) -> is_list(K) andalso is_list(V);
is_text({What, _}) -> is_list(What).

-spec rows([string()], integer(), integer(), integer()) -> string().
rows([S], N, _, Col) -> case length(S) > N of true -> new_line(Col) ++ S; false -> S end;
rows([S | Rows], N, Room, Col) ->
    Length = length(S) + 1,
    case N < Length of
        true -> new_line(Col) ++ S ++ "," ++ rows(Rows, Room - Length, Room, Col);
        false -> S ++ "," ++ rows(Rows, N - Length, Room, Col)
    end.

-spec new_line(integer()) -> string().
new_line(Col) -> [$\n | lists:duplicate(Col - 1, $\s)].

-spec under_key(tuple()) -> pos_integer().
under_key({_, _, I}) when I > 0 -> I;
under_key(_) -> 4.

%% ---- how far what comes after a tag is indented

%% By the tag, where no part begins right of the middle of the line then; else by 4, or else by 1.
-spec indentation(tuple(), integer(), integer()) -> integer().
indentation(Shape, Col, Line) ->
    case good(Shape, Col, {Line, 0, -1}, 0) of
        true -> -1;
        false -> case good(Shape, Col, {Line, 0, 4}, 0) of true -> 4; false -> 1 end
    end.

-spec good(tuple(), integer(), tuple(), integer()) -> boolean().
good({_, Length}, Col, {Line, _, _}, Ends) when Length < Line - Col - Ends -> true;
good({{list, Parts}, _}, Col, Layout, Ends) -> good_parts(Parts, Col + 1, Layout, Ends);
good({{map, Pairs}, _}, Col, Layout, Ends) -> good_parts(Pairs, Col + 2, Layout, Ends);
good({{tuple, Parts}, _}, Col, Layout, Ends) -> good_parts(Parts, Col + 1, Layout, Ends);
good({{pair, K, V}, _}, Col, Layout, Ends) ->
    good(K, Col, Layout, Ends) andalso good(V, Col + under_key(Layout), Layout, Ends);
good({{tagged, [{_, N} | Parts]}, _}, Col, {Line, _, I} = Layout, Ends) when I > 0, N + 2 > I ->
    Col + I =< Line div 2 andalso good_placed(placed(Parts, Col + I, Col + N + 2, Layout, Ends), Col + I, Layout);
good({{tagged, [{_, N} | Parts]}, _}, Col, {Line, _, _} = Layout, Ends) ->
    Col + N + 2 < Line div 2 andalso good_parts(Parts, Col + N + 2, Layout, Ends);
good(_, _, _, _) -> true.

-spec good_parts(list(), integer(), tuple(), integer()) -> boolean().
good_parts([{dots, _}], _, _, _) -> true;
good_parts([E | Es], Col, Layout, Ends) ->
    Last = ends(Es, Ends),
    good(E, Col, Layout, Last)
        andalso good_placed(placed(Es, Col, Col + width(E, Col, Layout, Last), Layout, Ends), Col, Layout).

-spec good_placed(list(), integer(), tuple()) -> boolean().
good_placed([{below, E, Ends} | Placed], Col, Layout) ->
    good(E, Col, Layout, Ends) andalso good_placed(Placed, Col, Layout);
good_placed([_ | Placed], Col, Layout) -> good_placed(Placed, Col, Layout);
good_placed([], _, _) -> true.
