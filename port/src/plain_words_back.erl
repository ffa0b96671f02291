%% @doc Names and terms of the text turned back into those of the source: maps, binaries, funs and services.
-module(plain_words_back).
-export([line/2, function/1, place/1, size/1, after_term/1]).
-compile({no_auto_import, [size/1]}).

%% @doc A line of an answer in the source's words.
-spec line(binary(), #{atom() => plain_translation:place()}) -> binary().
line(Line, Names) -> iolist_to_binary(scan(Line, Names)).

-spec scan(binary(), #{atom() => plain_translation:place()}) -> iodata().
scan(<<>>, _) -> [];
scan(<<"{'#", _/binary>> = Text, Names) -> scan_term(Text, Names);
scan(<<"[", _/binary>> = Text, Names) -> scan_term(Text, Names);
scan(<<"'", Rest/binary>>, Names) ->
    {Quoted, After} = quoted(Rest, <<>>),
    [$', Quoted, $' | scan(After, Names)];
scan(<<"port@", Rest/binary>>, Names) ->
    {Service, After} = bare(Rest, <<>>),
    [$<, Service, $> | scan(After, Names)];
scan(<<C, _/binary>> = Text, Names) when C >= $a, C =< $z ->
    {Word, After} = bare(Text, <<>>),
    [Word | scan(After, Names)];
scan(<<C, Rest/binary>>, Names) -> [C | scan(Rest, Names)].

%% A term where one is read here, and else its first byte as it is.
-spec scan_term(binary(), #{atom() => plain_translation:place()}) -> iodata().
scan_term(Text, Names) ->
    case term(Text) of
        {ok, Term, Rest} -> [written(Term, Names) | scan(Rest, Names)];
        error ->
            <<First, Rest/binary>> = Text,
            [First | scan(Rest, Names)]
    end.

-spec quoted(binary(), binary()) -> {binary(), binary()}.
quoted(<<"\\", C, Rest/binary>>, Before) -> quoted(Rest, <<Before/binary, "\\", C>>);
quoted(<<"'", Rest/binary>>, Before) -> {Before, Rest};
quoted(<<C, Rest/binary>>, Before) -> quoted(Rest, <<Before/binary, C>>);
quoted(<<>>, Before) -> {Before, <<>>}.

-spec bare(binary(), binary()) -> {binary(), binary()}.
bare(<<C, Rest/binary>>, Before) when C >= $a, C =< $z; C >= $A, C =< $Z; C >= $0, C =< $9; C =:= $_; C =:= $@ -> bare(Rest, <<Before/binary, C>>);
bare(Rest, Before) -> {Before, Rest}.

%% A term as it is printed in a report.
-type term_read() :: {tuple | list, [term_read()]} | {atom | other, binary()}.
-spec term(binary()) -> {ok, term_read(), binary()} | error.
term(<<"{", Rest/binary>>) -> several(Rest, $}, tuple, []);
term(<<"[", Rest/binary>>) -> several(Rest, $], list, []);
term(<<"'", Rest/binary>>) ->
    {Quoted, After} = quoted(Rest, <<>>),
    {ok, {atom, Quoted}, After};
term(<<"#Ref", Rest/binary>>) ->
    [Number, After] = binary:split(Rest, <<">">>),
    {ok, {other, <<"#Ref", Number/binary, ">">>}, After};
term(<<"<", Rest/binary>>) ->
    [Number, After] = binary:split(Rest, <<">">>),
    {ok, {other, <<"<", Number/binary, ">">>}, After};
term(<<"-", Rest/binary>>) ->
    {Digits, After} = bare(Rest, <<>>),
    {ok, {other, <<"-", Digits/binary>>}, After};
term(<<C, _/binary>> = Text) when C >= $0, C =< $9 ->
    {Digits, After} = bare(Text, <<>>),
    {ok, {other, Digits}, After};
term(<<C, _/binary>> = Text) when C >= $a, C =< $z ->
    {Word, After} = bare(Text, <<>>),
    {ok, {atom, Word}, After};
term(_) -> error.

-spec several(binary(), char(), tuple | list, [term_read()]) -> {ok, term_read(), binary()} | error.
several(<<Close, Rest/binary>>, Close, Kind, Before) -> {ok, {Kind, lists:reverse(Before)}, Rest};
several(<<",", Rest/binary>>, Close, Kind, Before) -> several(Rest, Close, Kind, Before);
several(Text, Close, Kind, Before) ->
    case term(Text) of
        {ok, Term, Rest} -> several(Rest, Close, Kind, [Term | Before]);
        error -> error
    end.

-spec written(term_read(), #{atom() => plain_translation:place()}) -> iodata().
written({tuple, [{atom, <<"#map">>}, {list, Pairs}]}, Names) ->
    ["#{", lists:join(",", [[written(Key, Names), " => ", written(Value, Names)] || {tuple, [Key, Value]} <- Pairs]), "}"];
written({tuple, [{atom, <<"#bin">>}, {list, Bytes}]}, _) -> binary([binary_to_integer(B) || {other, B} <- Bytes]);
written({tuple, [{atom, <<"#float">>}, {other, Key}]}, _) -> io_lib:format("~p", [plain_float:value(binary_to_integer(Key))]);
written({tuple, [{atom, <<"#fun">>}, {other, Arity}, {atom, Name} | _]}, Names) -> a_fun(binary_to_atom(Name), Arity, Names);
written({tuple, Elements}, Names) -> ["{", lists:join(",", [written(E, Names) || E <- Elements]), "}"];
written({list, Elements}, Names) ->
    case text(Elements, []) of
        {ok, Text} -> io_lib:format("~p", [Text]);
        no -> listed(Elements, Names)
    end;
written({atom, <<"port@", Service/binary>>}, _) -> [$<, Service, $>];
written({atom, Name}, _) -> io_lib:format("~p", [binary_to_atom(Name)]);
written({other, Text}, _) -> Text.

-spec listed([term_read()], #{atom() => plain_translation:place()}) -> iodata().
listed(Elements, Names) -> ["[", lists:join(",", [written(E, Names) || E <- Elements]), "]"].

%% A list of three characters or more, one of them a letter, is a text.
-spec text([term_read()], string()) -> {ok, string()} | no.
text([{other, Digits} | Rest], Before) ->
    case string:to_integer(Digits) of
        {C, <<>>} when is_integer(C), C >= 32, C =< 126; C =:= $\n; C =:= $\t -> text(Rest, [C | Before]);
        _ -> no
    end;
text([], [_, _, _ | _] = Before) ->
    case lists:any(fun(C) -> C >= $a andalso C =< $z orelse C >= $A andalso C =< $Z end, Before) of
        true -> {ok, lists:reverse(Before)};
        false -> no
    end;
text(_, _) -> no.

-spec binary([byte()]) -> iodata().
binary(Bytes) ->
    case lists:all(fun(B) -> B >= 32 andalso B =< 126 andalso B =/= $" andalso B =/= $\\ end, Bytes) of
        true when Bytes =/= [] -> ["<<\"", Bytes, "\">>"];
        _ -> ["<<", lists:join(",", [integer_to_list(B) || B <- Bytes]), ">>"]
    end.

-spec a_fun(atom(), binary(), #{atom() => plain_translation:place()}) -> iodata().
a_fun(Name, Arity, Names) ->
    case Names of
        #{Name := {_, File, Line, {'fun', Function}}} when Line > 0 -> ["#Fun<", function(Function), " ", plain_refusal:place(File, Line), ">"];
        #{Name := {_, _, _, {'fun', Function}}} -> ["#Fun<", function(Function), ">"];
        _ ->
            case lists:member($:, atom_to_list(Name)) of
                true -> ["fun ", atom_to_list(Name)];
                false -> ["#Fun<", atom_to_list(Name), "/", Arity, ">"]
            end
    end.

%% @doc A function, as module:name/arity.
-spec function({module(), atom(), arity()} | {'fun', {module(), atom(), arity()}}) -> iodata().
function({'fun', Function}) -> ["a fun of ", function(Function)];
function({Module, Function, Arity}) -> io_lib:format("~w:~w/~w", [Module, Function, Arity]).

%% @doc A place: of a source its file, line and function, of the library its module.
-spec place(plain_translation:place()) -> iodata().
place({Kind, File, Line, Function}) when Kind =:= user; Kind =:= called -> [plain_refusal:place(File, Line), " ", function(Function)];
place({_, _, _, {'fun', {Module, _, _}}}) -> ["library ", atom_to_list(Module)];
place({_, _, _, {Module, _, _}}) -> ["library ", atom_to_list(Module)].

%% @doc How many elements a printed tuple has; 0 of any other term.
-spec size(binary()) -> non_neg_integer().
size(Text) ->
    case term(Text) of
        {ok, {tuple, Elements}, <<>>} -> length(Elements);
        _ -> 0
    end.

%% @doc What comes after the first term of a text.
-spec after_term(binary()) -> {ok, binary()} | error.
after_term(Text) ->
    case term(Text) of
        {ok, _, Rest} -> {ok, Rest};
        error -> error
    end.
