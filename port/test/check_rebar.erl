%% @doc `rebar3 pulsefarm', where rebar3 is there: a project has this part as a plugin and its tests are hunted. Nothing
%% is fetched.
-module(check_rebar).
-export([check/0]).

-spec check() -> ok.
check() ->
    case os:find_executable("rebar3") of
        false -> io:format("  there is no rebar3, so its provider is left out~n");
        Rebar -> hunted(Rebar)
    end.

-spec hunted(file:filename()) -> ok.
hunted(Rebar) ->
    Project = checks:room("shop"),
    Plugin = filename:join(Project, "_checkouts/pulsefarm_erl"),
    Copied = shell("cp -r ~ts ~ts && rm ~ts/main.erl && mkdir -p ~ts && cd ~ts && cp -r src priv rebar.config ~ts",
                   [checks:folder("shop"), Project, Project, Plugin, checks:folder(".."), Plugin]),
    checks:expect("the project is copied", "", Copied),
    ok = file:write_file(filename:join(Project, "rebar.config"), "{project_plugins, [pulsefarm_erl]}.\n", [append]),
    Answer = shell("cd ~ts && HOME=~ts ~ts pulsefarm --test 'two buy' --seeds 0..40 2>&1; echo \"status $?\"",
                   [Project, checks:room(""), Rebar]),
    [checks:expect(["rebar3 pulsefarm: ", Line], match, re:run(Answer, Line, [multiline, {capture, none}])) || Line <-
        ["shop_tests:shop_test_\\[3\\] two buy the last: seed [0-9]+ fails: crash <0> at shop_tests\\.erl:23 ",
         "^1 test: 1 fails, 0 refused$", "a test fails in some run", "status 1$"]],
    ok.

-spec shell(io:format(), [term()]) -> string().
shell(Format, Arguments) -> os:cmd(lists:flatten(io_lib:format(Format, Arguments))).
