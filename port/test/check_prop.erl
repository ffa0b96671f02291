%% @doc Parallel commands of a state machine: a stock of which two may take the last, and the same fixed; with
%% generators of PropEr where it is there; and what is refused.
-module(check_prop).
-export([check/0]).

-spec check() -> ok.
check() ->
    Files = [checks:folder("prop/stock_model.erl"), checks:folder("prop/stock.erl")],
    prints("two take the last", ["prop" | Files] ++ ["--tests", "12", "--seeds", "0..100"], 1,
          ["^one: V1 = stock:take\\(\\)\nother: V2 = stock:take\\(\\)\n",
                  "^no order of the commands explains these results$",
           "^crash <0> at pf_tests_[0-9]+\\.erl:[0-9]+ "
            ".*error \\{no_order_explains,\\{\\[\\],\\[<<\"one\">>\\],\\[<<\"one\">>\\]\\}\\}$",
           "^schedule [0-9,]+$", "^[0-9]+ <[0-9]+> calls <[0-9]+>: left  % stock\\.erl:13 stock:take/0: "]),
    same_again(Files),
    prints("the fixed stock", ["prop" | Files] ++ ["-D", "FIXED", "--tests", "12", "--seeds", "0..60"], 0,
          ["^no failure in 12 tests of 0\\.\\.60 seeds$"]),
    prints("no state machine", ["prop", checks:folder("prop/stock.erl")], 2,
          ["stock\\.erl exports no initial_state/0, so it is no state machine$"]),
    prints("no number", ["prop" | Files] ++ ["--tests", "many"], 2, ["--tests wants a number from 1 on$"]),
    case code:lib_dir(proper) of
        Folder when is_list(Folder) -> by_generators(filelib:is_regular(filename:join(Folder, "include/proper.hrl")),
                Files);
        {error, _} -> by_generators(false, Files)
    end.

%% The same seed makes the same tests.
-spec same_again([file:filename()]) -> boolean().
same_again(Files) ->
    [One, Two] = [checks:command(["prop" | Files] ++ ["--tests", "12", "--seeds", "0..100", "--seed", "5"]) || _ <- [1, 2]],
    checks:expect("the same seed", without_number(One), without_number(Two)).

%% An answer without the number that names the file of its tests.
-spec without_number({string(), 0..255}) -> {string(), 0..255}.
without_number({Answer, Status}) -> {re:replace(Answer, "pf_tests_[0-9]+", "pf_tests", [global, {return, list}]), Status}.

-spec by_generators(boolean(), [file:filename()]) -> ok.
by_generators(false, _) -> io:format("  there is no PropEr with its header, so its generators are left out~n");
by_generators(true, [Model, Stock]) ->
    prints("generators of PropEr", ["prop", checks:folder("prop/stock_proper.erl"), Model, Stock, "--tests", "12",
            "--seeds", "0..100"], 1,
          ["^no order of the commands explains these results$"]).

-spec prints(string(), [string()], 0..2, [string()]) -> ok.
prints(Name, Words, Status, Lines) ->
    {Answer, Seen} = checks:command(Words),
    checks:expect(["status of ", Name], Status, Seen),
    [checks:expect([Name, " prints ", Line, " in ", Answer], match, re:run(Answer, Line, [multiline, {capture,
            none}])) || Line <- Lines],
    ok.
