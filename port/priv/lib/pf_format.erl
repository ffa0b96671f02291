%% Formats, after OTP 25: all directives, with width, precision and padding, but for texts of more than Latin-1. What
%% comes is flat, and pids, references and funs are printed without their numbers. PRETTY is set where a text of the
%% program has ~p or ~P, and RARE_FORMATS where one has a directive that few have; else these end as refused.
-module(pf_format).
-compile([export_all, nowarn_export_all]).
-spec format(term(), As :: term()) -> list().
format(F, As) -> fmt(F, As, []).

%% what came before is there from its end on, in characters and texts, for who asks for the column
-spec fmt(term(), As :: term(), list()) -> list().
fmt([$~ | T], As, Before) -> width(T, As, Before);
fmt([C | T], As, Before) -> [C | fmt(T, As, [C | Before])];
fmt([], [], _) -> [];
fmt({'#bin', B}, As, Before) -> fmt(B, As, Before);
fmt(F, As, []) when is_atom(F), is_list(As), F =/= [] -> fmt(atom_to_list(F), As, []);
fmt(_, _, _) -> error(badarg).

%% a field is {Width, Adjusted, Precision, Padding, latin1 or unicode, texts or plain}
-spec width(list(), As :: term(), list()) -> list().
width([$- | T], As, Before) ->
    case value(T, As) of
        {none, _, _} -> error(badarg);
        {N, T2, As2} -> precision(T2, adjusted_to(-N), As2, Before)
    end;
width(T, As, Before) -> {N, T2, As2} = value(T, As), precision(T2, adjusted_to(N), As2, Before).

-spec adjusted_to(none | integer()) -> tuple().
adjusted_to(N) when is_integer(N), N < 0 -> {-N, left, none, $\s, latin1, texts};
adjusted_to(N) -> {N, right, none, $\s, latin1, texts}.

-spec precision(list(), tuple(), As :: term(), list()) -> list().
precision([$. | T], {N, Adj, _, Pad, Enc, Texts}, As, Before) ->
    {P, T2, As2} = value(T, As),
    padding(T2, {N, Adj, P, Pad, Enc, Texts}, As2, Before);
precision(T, F, As, Before) -> code(T, F, As, Before).

-spec padding(list(), tuple(), As :: term(), list()) -> list().
padding([$., $* | T], {N, Adj, P, _, Enc, Texts}, As, Before) ->
    {C, T2, As2} = given(T, As),
    code(T2, {N, Adj, P, C, Enc, Texts}, As2, Before);
padding([$., C | T], {N, Adj, P, _, Enc, Texts}, As, Before) -> code(T, {N, Adj, P, C, Enc, Texts}, As, Before);
padding(T, F, As, Before) -> code(T, F, As, Before).

%% a number of the format, or of the arguments
-spec value(list(), As :: term()) -> {none | integer(), list(), As :: term()}.
value([$* | T], As) -> given(T, As);
value([C | T], As) when C >= $0, C =< $9 -> {N, T2} = digits(T, C - $0), {N, T2, As};
value(T, As) -> {none, T, As}.

-spec digits(list(), non_neg_integer()) -> {non_neg_integer(), list()}.
digits([C | T], N) when C >= $0, C =< $9 -> digits(T, N * 10 + C - $0);
digits(T, N) -> {N, T}.

-spec code(term(), tuple(), As :: term(), list()) -> list().
code([$t | T], {N, Adj, P, Pad, _, Texts}, As, Before) -> code(T, {N, Adj, P, Pad, unicode, Texts}, As, Before);
code([$l | T], {N, Adj, P, Pad, Enc, _}, As, Before) -> code(T, {N, Adj, P, Pad, Enc, plain}, As, Before);
code([C | T], F, As, Before) when C =:= $n; C =:= $~ -> then(alone(C, F), T, As, Before);
code([C | T], F, [A | As], Before) when C =:= $p; C =:= $w -> then(shown(C - 32, A, -1, F, Before), T, As, Before);
code([$i | T], _, [_ | As], Before) -> fmt(T, As, Before);
code([C | T], F, [A | As], Before) when C =:= $P; C =:= $W; C =:= $x; C =:= $X; C =:= $+; C =:= $# ->
    rare(C, T, F, A, As, Before);
code([C | T], F, [A | As], Before) -> then(one(C, A, F), T, As, Before);
code(_, _, _, _) -> error(badarg).

-ifdef(RARE_FORMATS).
-spec given(list(), As :: term()) -> {integer(), list(), As :: term()}.
given(T, [A | As]) when is_integer(A) -> {A, T, As};
given(_, _) -> error(badarg).

-spec rare(char(), list(), tuple(), term(), As :: term(), list()) -> list().
rare(C, T, F, A, [D | As], Before) when C =:= $P; C =:= $W -> then(shown(C, A, D, F, Before), T, As, Before);
rare(C, T, F, A, [Prefix | As], Before) when C =:= $x; C =:= $X -> then(based(C, A, prefix(Prefix), F), T, As, Before);
rare($+, T, {_, _, P, _, _, _} = F, A, As, Before) ->
    then(based($x, A, integer_to_list(or_else(P, 10)) ++ "#", F), T, As, Before);
rare($#, T, {_, _, P, _, _, _} = F, A, As, Before) ->
    then(based($X, A, integer_to_list(or_else(P, 10)) ++ "#", F), T, As, Before);
rare(_, _, _, _, _, _) -> error(badarg).

-spec prefix(term()) -> string().
prefix(A) when is_atom(A) -> atom_to_list(A);
prefix(S) when is_list(S) -> case io_lib:deep_char_list(S) of true -> lists:flatten(S); false -> error(badarg) end;
prefix(_) -> error(badarg).
-else.
given(_, _) -> prim:raw(exit, {refused, io_lib, format, 2}).
rare(_, _, _, _, _, _) -> prim:raw(exit, {refused, io_lib, format, 2}).
-endif.

-spec then(string(), term(), As :: term(), list()) -> list().
then(S, T, As, Before) -> S ++ fmt(T, As, [S | Before]).

-spec alone(char(), tuple()) -> string().
alone($~, F) -> character($~, F);
alone($n, {none, _, _, _, _, _}) -> "\n";
alone($n, {N, right, _, _, _, _}) -> copies($\n, N);
alone(_, _) -> error(badarg).

-spec one(char(), term(), tuple()) -> string().
one($s, A, {_, _, _, _, Enc, _} = F) -> cut(text(A, Enc), F);
one($c, A, {_, _, _, _, unicode, _} = F) when is_integer(A) -> character(A, F);
one($c, A, F) when is_integer(A) -> character(A band 255, F);
one($b, A, F) when is_integer(A) -> based($x, A, "", F);
one($B, A, F) when is_integer(A) -> based($X, A, "", F);
one(C, {'#float', K}, {N, Adj, P, Pad, Enc, Texts}) when C =:= $f; C =:= $e; C =:= $g ->
    placed(pf_decimal:format(C, {'#float', K}, or_else(P, 6)), {N, Adj, none, Pad, Enc, Texts});
one(_, _, _) -> error(badarg).

-spec character(char(), tuple()) -> string().
character(C, {none, _, P, _, _, _}) -> copies(C, or_else(P, 1));
character(C, {N, _, none, _, _, _}) -> copies(C, N);
character(C, {N, Adj, P, Pad, _, _}) when N >= P -> adjusted(copies(C, P), N, Adj, Pad);
character(_, _) -> error(badarg).

-spec based($x | $X, term(), string(), tuple()) -> string().
based(C, A, Prefix, {N, Adj, P, Pad, Enc, Texts}) when is_integer(A) ->
    Digits = integer_to_list(abs(A), or_else(P, 10)),
    S = Prefix ++ case C of $x -> string:lowercase(Digits); $X -> Digits end,
    placed(case A < 0 of true -> [$- | S]; false -> S end, {N, Adj, none, Pad, Enc, Texts});
based(_, _, _, _) -> error(badarg).

-spec or_else(none | integer(), integer()) -> integer().
or_else(none, N) -> N;
or_else(N, _) -> N.

%% what is too long for its field is stars
-spec placed(list(), tuple()) -> list().
placed(S, {none, _, none, _, _, _}) -> S;
placed(S, {none, Adj, P, Pad, Enc, Texts}) -> placed(S, {P, Adj, P, Pad, Enc, Texts});
placed(S, {N, Adj, P0, Pad, _, _}) ->
    L = length(S),
    P = min(L, min(or_else(P0, N), N)),
    case L > P of
        true -> adjusted(copies($*, P), N, Adj, Pad);
        false -> adjusted(S, N, Adj, Pad)
    end.

%% of a text the beginning
-spec cut(list(), tuple()) -> list().
cut(S, {none, _, none, _, _, _}) -> S;
cut(S, {none, _, P, Pad, _, _}) -> adjusted(lists:sublist(S, P), P, left, Pad);
cut(S, {N, Adj, none, Pad, _, _}) -> adjusted(lists:sublist(S, N), N, Adj, Pad);
cut(S, {N, Adj, P, Pad, _, _}) when N >= P -> adjusted(adjusted(lists:sublist(S, P), P, left, Pad), N, Adj, Pad);
cut(_, _) -> error(badarg).

-spec adjusted(list(), non_neg_integer(), left | right, char()) -> list().
adjusted(S, N, Adj, Pad) ->
    More = copies(Pad, max(0, N - length(S))),
    case Adj of left -> S ++ More; right -> More ++ S end.

-spec copies(char(), non_neg_integer()) -> list().
copies(C, N) -> lists:duplicate(N, C).

-spec text(term(), latin1 | unicode) -> list().
text(A, _) when is_atom(A) -> atom_to_list(A);
text(S, Enc) -> characters(S, Enc).

%% bytes of a binary are characters, but where a text of Unicode has more of them than those of ASCII
-spec characters(term(), latin1 | unicode) -> list().
characters([C | T], Enc) when is_integer(C) ->
    case C >= 0 andalso (Enc =:= unicode orelse C < 256) of
        true -> [C | characters(T, Enc)];
        false -> error(badarg)
    end;
characters([L | T], Enc) -> characters(L, Enc) ++ characters(T, Enc);
characters({'#bin', B}, latin1) -> B;
characters({'#bin', B}, unicode) -> ascii(B), B;
characters([], _) -> [];
characters(_, _) -> error(badarg).

-spec ascii([byte()]) -> ok.
ascii([B | Bs]) when B < 128 -> ascii(Bs);
ascii([]) -> ok;
ascii(_) -> prim:raw(exit, {refused, io_lib, format, 2}).

%% ---- terms

-spec shown($P | $W, term(), term(), tuple(), list()) -> string().
shown(_, _, D, _, _) when not is_integer(D) -> error(badarg);
shown($W, T, D, F, _) -> placed(pf_format:write(T, D), F); % by its module, as it is there in plain mode alone
shown($P, _, _, {_, left, _, _, _, _}, _) -> error(badarg);
shown($P, T, D, {N, _, P, _, Enc, Texts}, Before) -> pretty(T, P, or_else(N, 80), D, Enc, Texts, Before).

%% a text of Unicode that a binary has is printed so by ~tp
-spec ascii_binaries(term()) -> term().
ascii_binaries({'#bin', B}) -> ascii(B);
ascii_binaries({'#float', _}) -> ok;
ascii_binaries(F) when is_function(F) -> ok;
ascii_binaries({'#map', L}) -> ascii_binaries(L);
ascii_binaries(T) when is_tuple(T) -> ascii_binaries(tuple_to_list(T));
ascii_binaries([X | Xs]) -> ascii_binaries(X), ascii_binaries(Xs);
ascii_binaries(_) -> ok.

-ifdef(PRETTY).
-spec pretty(term(), none | integer(), integer(), integer(), latin1 | unicode, texts | plain, list()) -> string().
pretty(T, P, Line, D, Enc, Texts, Before) ->
    Enc =:= unicode andalso ascii_binaries(T),
    Column = case P of
        none when is_list(T); is_tuple(T); is_map(T); is_binary(T) -> column(Before) + 1;
        none -> 1;
        _ -> P
    end,
    pf_pretty:print(T, Column, Line, D, Texts).

%% how many columns the line that a text ends has; a tab goes on to the next eighth
-spec column(list()) -> non_neg_integer().
column([]) -> 0;
column([$\n | _]) -> 0;
column([$\t | T]) -> ((column(T) + 8) div 8) * 8;
column([S | T]) when is_list(S) -> column(lists:reverse(S) ++ T);
column([_ | T]) -> column(T) + 1.
-else.
pretty(_, _, _, _, _, _, _) -> prim:raw(exit, {refused, io_lib, format, 2}).
-endif.

-spec write(term()) -> list().
write(T) -> write(T, -1).

%% A term on one line, to a depth, which is below 0 where there is none.
-spec write(term(), integer()) -> list().
write(_, 0) -> "...";
write(I, _) when is_integer(I) -> integer_to_list(I);
write([], _) -> "[]";
write(A, _) when is_atom(A) -> write_atom(A);
write(F, _) when is_function(F) -> "#Fun";
write(L, 1) when is_list(L) -> "[...]";
write([X | Xs], D) -> "[" ++ write(X, D - 1) ++ items(Xs, D - 1, "|") ++ "]";
write({'#float', K}, _) -> pf_decimal:to_list({'#float', K}, [short]);
write({'#bin', B}, D) -> "<<" ++ bytes(B, D) ++ ">>";
write({'#map', []}, _) -> "#{}";
write({'#map', _}, 1) -> "#{}";
write({'#map', [P | Ps]}, D) -> "#{" ++ pair(P, D - 1) ++ pairs(Ps, D - 1, D - 1) ++ "}";
write({}, _) -> "{}";
write(T, 1) when is_tuple(T) -> "{...}";
write(T, D) when is_tuple(T) -> [X | Xs] = tuple_to_list(T), "{" ++ write(X, D - 1) ++ items(Xs, D - 1, ",") ++ "}";
write(P, _) when is_pid(P) -> "<pid>";
write(_, _) -> "#Ref".

-spec items(list(), integer(), string()) -> list().
items([], _, _) -> [];
items(_, 1, Bar) -> Bar ++ "...";
items([X | Xs], D, Bar) -> "," ++ write(X, D - 1) ++ items(Xs, D - 1, Bar).

-spec pairs(list(), integer(), integer()) -> list().
pairs(_, 1, _) -> ",..."; % as OTP has it, after the last pair too
pairs([], _, _) -> [];
pairs([P | Ps], D, Each) -> "," ++ pair(P, Each) ++ pairs(Ps, D - 1, Each).

-spec pair({term(), term()}, integer()) -> list().
pair({K, V}, D) -> write(K, D) ++ " => " ++ write(V, D).

-spec bytes([byte()], integer()) -> list().
bytes([], _) -> [];
bytes(_, 1) -> "...";
bytes([B], _) -> integer_to_list(B);
bytes([B | Bs], D) -> integer_to_list(B) ++ "," ++ bytes(Bs, D - 1).

-spec write_atom(atom()) -> list().
write_atom(A) when is_atom(A) -> atom(atom_to_list(A)).

%% an atom that is no word is quoted
-spec atom(list()) -> list().
atom([C | T] = S) when C >= $a, C =< $z ->
    case lists:all(fun is_word/1, T) andalso not lists:member(S, reserved()) of
        true -> S;
        false -> quoted(S, $')
    end;
atom(S) -> quoted(S, $').

-spec is_word(char()) -> boolean().
is_word(C) -> C >= $a andalso C =< $z orelse C >= $A andalso C =< $Z orelse C >= $0 andalso C =< $9 orelse
        C =:= $_ orelse C =:= $@.

-spec reserved() -> [list()].
reserved() ->
    ["after", "and", "andalso", "band", "begin", "bnot", "bor", "bsl", "bsr", "bxor", "case", "catch", "cond", "div",
            "end", "fun", "if", "let",
     "not", "of", "or", "orelse", "receive", "rem", "try", "when", "xor"].

-spec printable_list(term()) -> boolean().
printable_list([]) -> true;
printable_list([C | T]) when is_integer(C), C >= 32, C =< 126; is_integer(C), C >= 160, C =< 255; is_integer(C),
        C >= 8, C =< 13; C =:= 27 -> printable_list(T);
printable_list(_) -> false.

-spec quoted(list(), char()) -> list().
quoted(S, Q) -> [Q] ++ escaped(S, Q) ++ [Q].

-spec escaped(list(), char()) -> list().
escaped([], _) -> [];
escaped([C | T], Q) when C =:= Q; C =:= $\\ -> [$\\, C | escaped(T, Q)];
escaped([$\n | T], Q) -> [$\\, $n | escaped(T, Q)];
escaped([$\t | T], Q) -> [$\\, $t | escaped(T, Q)];
escaped([$\r | T], Q) -> [$\\, $r | escaped(T, Q)];
escaped([11 | T], Q) -> [$\\, $v | escaped(T, Q)];
escaped([8 | T], Q) -> [$\\, $b | escaped(T, Q)];
escaped([12 | T], Q) -> [$\\, $f | escaped(T, Q)];
escaped([27 | T], Q) -> [$\\, $e | escaped(T, Q)];
escaped([C | T], Q) -> [C | escaped(T, Q)].
