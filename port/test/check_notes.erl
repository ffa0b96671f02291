%% @doc Notes: those of each file are the lines `%% note: LINE: SENTENCE' at its end.
-module(check_notes).
-export([check/0]).

-spec check() -> ok.
check() ->
    [one(File) || File <- lists:sort(filelib:wildcard(checks:folder("notes/*.erl")))],
    lax(),
    ok.

-spec one(file:filename()) -> boolean().
one(File) ->
    {ok, Text} = file:read_file(File),
    Wanted = case re:run(Text, "^%% note: (.*)$", [multiline, global, {capture, [1], list}]) of
        {match, Lines} -> [filename:basename(File) ++ ":" ++ Line || [Line] <- Lines];
        nomatch -> []
    end,
    {ok, _, #{notes := Notes}} = checks:translate([File]),
    checks:expect(filename:basename(File), Wanted, Notes).

%% With --lax what isn't known is taken, with a note, and ends the process that comes to it.
-spec lax() -> boolean().
lax() ->
    {ok, Out, #{notes := [Note]}} = checks:translate([checks:folder("refused/refused_hash.erl")], #{lax => true}),
    checks:expect("a note on what is taken", true, string:find(Note, "ends with {refused,..}") =/= nomatch),
    checks:expect("who comes to it", "ended {refused,erlang,phash2,1}", element(1, checks:run(Out, "main", 0))).
