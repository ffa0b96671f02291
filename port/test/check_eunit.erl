%% @doc The tests of an application: each test of EUnit by itself, those that fail in some run, and the same as JUnit has it. On Erlang each of them
%% passes in the usual order.
-module(check_eunit).
-export([check/0]).

-spec check() -> ok.
check() ->
    Folder = checks:folder("shop"),
    File = checks:room("junit.xml"),
    {Answer, Status} = checks:command(["eunit", Folder, "--seeds", "0..40", "--junit", File]),
    checks:expect("status of eunit", 1, Status),
    [has_line(Name, Seeds, Answer) || {Name, Seeds} <-
        [{"bill_test", holds}, {"lines_test_\\[1\\] two", holds}, {"lines_test_\\[2\\] none", holds}, {"door_test", holds}, {"shop_test_\\[1\\] a price", holds},
         {"shop_test_\\[2\\] one buys", holds}, {"each_test_\\[1\\]", holds},
         {"shop_test_\\[3\\] two buy the last", "crash <0> at shop_tests\\.erl:23 shop_tests:shop_test_/0: error \\{assertMatch,"},
         {"each_test_\\[2\\] notes", "crash <0> at shop_tests\\.erl:29 shop_tests:each_test_/0: error \\{assertEqual,.*\\{expected,\\[\\{closed,1\\}\\]\\},\\{value,\\[\\]\\}"}]],
    has_line("9 tests", "2 fail, 0 refused", Answer),
    {ok, Junit} = file:read_file(File),
    checks:expect("nine cases", 9, length(binary:matches(Junit, <<"<testcase ">>))),
    checks:expect("two failures", 2, length(binary:matches(Junit, <<"<failure ">>))),
    {Timed, 0} = checks:command(["eunit", Folder, "--test", "bill", "--for", "1s"]),
    has_line("shop_tests:bill_test", "no failure in [0-9]+ seeds", Timed),
    has_line("1 test", "0 fail, 0 refused$", Timed),
    alone(),
    several(),
    elements(),
    {None, 2} = checks:command(["eunit", checks:folder("commands")]),
    has_line("pulsefarm-erl", ".*there is no src/NAME.app.src", None),
    ok.

%% Tests of one generator, of which some are refused: the others are hunted.
-spec alone() -> ok.
alone() ->
    {Answer, 2} = checks:command(["eunit", checks:folder("alone"), "--seeds", "0..40"]),
    [checks:expect(["a test alone: ", Line], match, re:run(Answer, ["^alone_tests:set_test_", Line], [multiline, {capture, none}])) || Line <-
        ["\\[1\\] answers: no failure in 40 seeds$", "\\[2\\] lives: no failure in 40 seeds$",
         "\\[3\\.1\\]: no failure in 40 seeds$", "\\[3\\.2\\] is watched: refused: alone_tests\\.erl:12: erlang:process_info\\(_, reductions\\) is not translated.*$"]],
    has_line("4 tests", "0 fail, 1 refused", Answer),
    ok.

%% A project of two applications and one that they depend on, of which a file that nothing names couldn't be read.
-spec several() -> ok.
several() ->
    {Answer, 1} = checks:command(["eunit", checks:folder("projects"), "--seeds", "0..40"]),
    [checks:expect(["several applications: ", Line], match, re:run(Answer, ["^", Line], [multiline, {capture, none}])) || Line <-
        ["desk_tests:desk_test_\\[1\\] one: no failure in 40 seeds$",
         "desk_tests:desk_test_\\[2\\] two: seed [0-9]+ fails: crash <0> at desk_tests\\.erl:7 .*\\{expected,\\[3300,3600\\]\\},\\{value,\\[3300,3300\\]\\}",
         "ledger_tests:price_test: no failure in 40 seeds$"]],
    has_line("3 tests", "1 fails, 0 refused", Answer),
    ok.

%% Each kind of element of a test set is a root of its own, and each reads and sets the environment.
-spec elements() -> ok.
elements() ->
    {Answer, 1} = checks:command(["eunit", checks:folder("elements"), "--seeds", "0..20"]),
    Held = ["one_test", "env_test", "all_test_\\[1\\] title", "all_test_\\[2\\]", "all_test_\\[3\\]", "all_test_\\[4\\.1\\]", "all_test_\\[4\\.2\\] t2", "all_test_\\[5\\.1\\]",
            "all_test_\\[6\\.1\\]", "all_test_\\[7\\]", "all_test_\\[8\\.1\\]", "all_test_\\[9\\.1\\]", "all_test_\\[10\\]", "all_test_\\[11\\.1\\.1\\] deep", "fix_test_\\[1\\] in"],
    [checks:expect(["an element: ", Test], match, re:run(Answer, ["^elements_tests:", Test, ": no failure in 20 seeds$"], [multiline, {capture, none}])) || Test <- Held],
    checks:expect("one that fails", match, re:run(Answer, "^elements_tests:all_test_\\[8\\.2\\] bad: seed 0 fails: crash <0> at elements_tests\\.erl:8 .*\\{expected,3\\},\\{value,2\\}", [multiline, {capture, none}])),
    has_line("16 tests", "1 fails, 0 refused", Answer),
    ok.

%% A line of the answer.
-spec has_line(string(), holds | string(), string()) -> boolean().
has_line(Name, holds, Answer) -> has_line(Name, "no failure in 40 seeds$", Answer);
has_line(Name, "crash " ++ _ = Crash, Answer) -> has_line(Name, "seed [0-9]+ fails: (" ++ Crash ++ ")", Answer);
has_line(Name, Rest, Answer) ->
    checks:expect([Name, ": ", Rest], match, re:run(Answer, ["^(shop_tests:)?", Name, ": ", Rest], [multiline, {capture, none}])).
