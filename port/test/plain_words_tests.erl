-module(plain_words_tests).
-include("units.hrl").

asked(Words) ->
    {ok, Asked} = plain_words:read(Words),
    Asked.

files_and_options_test() ->
    #{command := hunt, files := ["a.erl", "b.erl"], options := Options, words := ["--seeds", "0..5"]} =
        asked(["hunt", "a.erl", "-I", "include", "b.erl", "-D", "X", "-D", "Y=3", "--seeds", "0..5", "--root", "go", "--never", "500"]),
    #{includes := ["include"], defines := ['X', {'Y', 3}], root := go, never := 500} = Options.

patience_is_for_the_library_test() ->
    #{options := #{library_defines := [{'PATIENCE', 4}], defines := []}} = asked(["run", "a.erl", "--patience", "4"]).

call_timeouts_are_for_the_library_test() ->
    #{options := #{library_defines := ['CALL_TIMEOUTS']}} = asked(["run", "a.erl", "-D", "CALL_TIMEOUTS"]).

refusals_test_() ->
    [?_assertMatch({refused, _}, plain_words:read(Words)) ||
        Words <- [[], ["walk"], ["hunt"], ["run", "a.erl", "--seed"], ["run", "a.erl", "--patience", "-1"], ["translate", "a.erl", "--all"]]].

help_test() ->
    {help, Text} = plain_words:read(["--help"]),
    ?assertNotEqual(nomatch, string:find(Text, "tested and not proved")).

defaults_test() ->
    ?assertEqual(["--seeds", "0..1000"], plain_words:with_choice(hunt, [])),
    ?assertEqual(["--schedule", "@f"], plain_words:with_choice(run, ["--schedule", "@f"])),
    ?assertEqual(["--seed", "0"], plain_words:with_choice(chart, [])).

value_test() ->
    ?assertEqual("7", plain_words:value("--seed", ["--x", "y", "--seed", "7"], none)),
    ?assertEqual(none, plain_words:value("--seed", ["--x", "y"], none)).

format_test() ->
    #{format := json, words := []} = asked(["hunt", "a.erl", "--format", "json"]),
    ?assertEqual(false, is_map_key(format, asked(["run", "a.erl"]))).

without_test() ->
    ?assertEqual(["--all", "--x", "1"], plain_words:without(["--leaks", "--seeds", "--fail-fast"], ["--leaks", "--all", "--seeds", "0..3", "--x", "1", "--fail-fast"])).

flags_test() ->
    #{files := ["a.erl", "b.erl"], words := ["--leaks", "--all-roots", "--fail-fast"]} = asked(["hunt", "--leaks", "a.erl", "--all-roots", "--fail-fast", "b.erl"]),
    #{words := ["--explain", "--seed", "3"]} = asked(["run", "--explain", "a.erl", "--seed", "3"]).

not_together_test_() ->
    [?_assertMatch({refused, _}, plain_words:read(["hunt", "a.erl" | Words])) ||
        Words <- [["--compact"], ["--explain"], ["--fail-fast"], ["--all-roots", "--root", "f"], ["--all-roots", "--all"], ["--all-roots", "--shrink", "3"],
                  ["--leaks", "--all"], ["--leaks", "--shrink", "3"], ["--leaks", "--property", "nocrash"], ["--format", "xml"]]].
