%% @doc The map of a translation: for each function of the text its first line, its name there, and the file and line that it comes from.
-module(plain_map).
-export([number/2, text/1]).

-type row() :: #{line := pos_integer(), name := string(), file := string() | none, source_line := non_neg_integer()}.
-export_type([row/0]).

%% @doc Functions, each with the line on which it begins; the first of them is on line `First'.
-spec number([{file:filename() | none, non_neg_integer(), string(), iodata()}], pos_integer()) -> {iodata(), [row()]}.
number(Functions, First) ->
    {Texts, {Rows, _}} = lists:mapfoldl(fun({File, Line, Name, Text}, {Before, Number}) ->
        Written = unicode:characters_to_binary(Text),
        Row = #{line => Number, name => Name, file => case File of none -> none; _ -> filename:basename(File) end, source_line => Line},
        {Written, {[Row | Before], Number + length(binary:matches(Written, <<"\n">>))}}
    end, {[], First}, Functions),
    {Texts, lists:reverse(Rows)}.

%% @doc A map as text: a line for each function.
-spec text([row()]) -> iodata().
text(Rows) -> [row(Row) || Row <- Rows].

-spec row(row()) -> iodata().
row(#{line := Number, name := Name, file := none}) -> io_lib:format("~w ~ts~n", [Number, Name]);
row(#{line := Number, name := Name, file := File, source_line := Line}) -> io_lib:format("~w ~ts:~w ~ts~n", [Number, File, Line, Name]).
