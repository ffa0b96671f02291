%% What a module says of its own errors in the text of a report: each is the same on erl and in every run of the tool.
-module(facts_of_own_words).
-export([main/0, format_error/2, says/2, fails/2]).

main() ->
    Info = fun(How) -> [{error_info, How}, {file, "m.erl"}, {line, 3}] end,
    [t(Reason, [{?MODULE, f, As, Info(How)}, {m, g, 1, [{file, "m.erl"}, {line, 4}]}])
     || {Reason, As, How} <-
        [{badarg, [x, 2], #{}}, {badarg, 2, #{}}, {badarg, [x], #{function => says}}, {mine, [x, y], #{module => ?MODULE, function => says}},
         {badarg, [x], #{function => fails}}, {badarg, [x], #{function => format_error, cause => id}}, {badarg, [x], none}, {undef, 1, #{}}]].

t(Reason, Stack) ->
    try lists:flatten(proc_lib:format([[{error_info, {error, Reason, Stack}}], []])) catch C:R -> {C, R} end.

format_error(badarg, [{?MODULE, f, _, _} | _]) -> #{2 => "not an atom\nbut a number", 1 => <<"bad">>};
format_error(undef, [{m, g, 1, _}]) -> #{1 => "no argument"};
format_error(_, _) -> #{}.

says(mine, _) -> #{reason => "a reason of mine", general => "all is lost"};
says(_, _) -> #{1 => ["not ", [$x]]}.

fails(_, _) -> error(no_words).
