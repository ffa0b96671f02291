%% @doc Times and steps: a translation takes at most 3 seconds of a processor, and a translated program at most 2.5 times the steps of one that was
%% written by hand in the profile for the same work.
-module(check_speed).
-export([check/0]).

-spec check() -> ok.
check() ->
    Files = lists:sort(filelib:wildcard(checks:folder("../examples/*.erl"))),
    Times = [{processor_time(File), filename:basename(File)} || File <- Files],
    {Longest, Name} = lists:max(Times),
    io:format("  the longest translation takes ~.1f s of a processor (~s)~n", [Longest, Name]),
    checks:expect("a translation takes at most 3 seconds of a processor", Longest =< 3.0),
    [steps(Program) || Program <- ["bank", "leader", "workers"]],
    ok.

%% What a node of its own takes, from its start to the end of a translation; other work of the machine doesn't count.
-spec processor_time(file:filename()) -> float().
processor_time(File) ->
    Words = io_lib:format("0 = pulsefarm_erl:run([\"translate\", ~p, \"-o\", ~p]), io:format(\"~~w\", [element(1, statistics(runtime))]), halt().",
                          [File, checks:room("timed.erl")]),
    Ebin = filename:dirname(code:which(plain_translation)),
    Port = open_port({spawn_executable, os:find_executable("erl")}, [{args, ["-noinput", "-pa", Ebin, "-eval", lists:flatten(Words)]}, exit_status, hide]),
    list_to_integer(printed(Port, [])) / 1000.

-spec printed(port(), [string()]) -> string().
printed(Port, Before) ->
    receive
        {Port, {data, Data}} -> printed(Port, [Data | Before]);
        {Port, {exit_status, 0}} -> lists:append(lists:reverse(Before))
    end.

%% The mean of the steps of 20 seeds, of the fixed program and of the one by hand.
-spec steps(string()) -> boolean().
steps(Name) ->
    {ok, Out, _} = checks:translate([checks:folder("../examples/" ++ Name ++ ".erl")], #{defines => ['FIXED']}),
    Translated = mean(Out),
    ByHand = mean(checks:folder("by_hand/" ++ Name ++ ".erl")),
    io:format("  ~s: ~w steps, by hand ~w, so ~.2f times~n", [Name, Translated, ByHand, Translated / ByHand]),
    checks:expect([Name, " takes at most 2.5 times the steps"], Translated =< 2.5 * ByHand).

-spec mean(file:filename()) -> non_neg_integer().
mean(File) -> lists:sum([element(2, checks:run(File, "main", Seed)) || Seed <- lists:seq(0, 19)]) div 20.
