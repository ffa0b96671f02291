%% @doc Process modules of OTP as they stand, with drivers of a few lines: what `main' does holds in each seed, and the race is found. On
%% Erlang `main' returns the same.
-module(check_otp).
-export([check/0]).

-define(SEEDS, "0..1000").

-spec check() -> ok.
check() ->
    Files = lists:sort(filelib:wildcard(checks:folder("otp/*.erl"))),
    checks:expect("three modules of OTP", 3, length(Files)),
    [one(File) || File <- Files],
    ok.

-spec one(file:filename()) -> boolean().
one(File) ->
    Name = filename:basename(File),
    All = [File | modules(File)],
    {ok, Main, _} = checks:translate(All, #{root => main}),
    Outcomes = checks:hunt(Main, "main", "returns", ?SEEDS),
    [checks:load(Other, [{i, filename:dirname(Other)}]) || Other <- lists:reverse(tl(All)), filename:basename(Other) =/= "supervisor_bridge.erl"],
    Value = checks:value_on_erlang(File, main),
    checks:expect([Name, " holds"], [{holds, 1000, lists:flatten(io_lib:format("finished ~w", [checks:normal(Value)]))}], Outcomes),
    {ok, Race, _} = checks:translate(All, #{root => race}),
    Found = checks:hunt(Race, "race", "nocrash", ?SEEDS),
    checks:expect([Name, ": the race is found"], lists:keymember(fails, 1, Found)).

%% The modules that a driver names: of OTP by application, or of the tests.
-spec modules(file:filename()) -> [file:filename()].
modules(File) ->
    {ok, Text} = file:read_file(File),
    {match, [Named]} = re:run(Text, "^%% modules: (.*)$", [multiline, {capture, [1], list}]),
    [path(Name) || Name <- string:tokens(Named, " ")].

-spec path(string()) -> file:filename().
path(Name) ->
    case string:split(Name, "/") of
        [_] -> checks:folder("otp/beside/" ++ Name);
        [Application, Rest] -> hd(filelib:wildcard(filename:join(code:lib_dir(), Application ++ "{,-*}/" ++ Rest)))
    end.
