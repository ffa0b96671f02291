%% @doc Cases of Common Test that hunt: called as functions, and by Common Test itself where it is there.
-module(check_ct).
-export([check/0]).

-spec check() -> ok.
check() ->
    Suite = checks:load(checks:folder("ct/bank_SUITE.erl"), []),
    checks:expect("a case that holds", ok, Suite:fixed([])),
    checks:expect("a case of a module that is loaded", ok, Suite:loaded([])),
    {error, {pulsefarm, fails, Line}} = try {ok, Suite:race([])} catch Class:Reason -> {Class, Reason} end,
    checks:expect(["the error of a case: ", Line], match, re:run(Line,
            "^crash <0> at bank\\.erl:38 bank:main/0: error \\{lost_update,", [{capture, none}])),
    case os:find_executable("ct_run") of
        false -> io:format("  there is no Common Test, so its run is left out~n");
        Program -> suite(Program)
    end.

-spec suite(file:filename()) -> ok.
suite(Program) ->
    Ebin = filename:dirname(code:which(pulsefarm_erl)),
    Logs = checks:room("ct_logs"),
    ok = file:make_dir(Logs),
    Command = io_lib:format("cd ~ts && ~ts -noshell -pa ~ts -suite ~ts -logdir ~ts 2>&1", [checks:room(""), Program,
            Ebin, checks:folder("ct/bank_SUITE"), Logs]),
    Answer = os:cmd(lists:flatten(Command)),
    checks:expect(["Common Test: ", lists:nthtail(max(0, length(Answer) - 600), Answer)], match, re:run(Answer,
            "2 ok, 1 failed of 3 test cases", [{capture, none}])),
    ok.
