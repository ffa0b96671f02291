%% @doc Each construct that is refused: file, line and sentence are those that the file itself has in lines `%% refused: LINE: SENTENCE'.
-module(check_refused).
-export([check/0]).

-spec check() -> ok.
check() ->
    Files = lists:sort(filelib:wildcard(checks:folder("refused/*.erl"))),
    checks:expect("30 files at least", length(Files) >= 30),
    [one(File) || File <- Files],
    ok.

-spec one(file:filename()) -> boolean().
one(File) ->
    {ok, Bytes} = file:read_file(File),
    Text = unicode:characters_to_list(Bytes),
    Wanted = case re:run(Text, "^%% refused: ([0-9]+): (.*)$", [multiline, global, unicode, {capture, [1, 2], list}]) of
        {match, Lines} -> [{filename:basename(File), list_to_integer(Line), Sentence} || [Line, Sentence] <- Lines];
        nomatch -> []
    end,
    Seen = case checks:translate([File]) of
        {refused, Refusals} -> [{filename:basename(Named), Line, lists:flatten(Sentence)} || {Named, Line, Sentence} <- Refusals];
        {ok, _, _} -> taken
    end,
    checks:expect(filename:basename(File), Wanted, Seen).
