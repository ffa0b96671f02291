%% @doc Where the processes of a run are at its end, on standard error: those that the root left, and with `--explain' each.
-module(plain_standing).
-export([left/3, explain/3, lines/3]).

-type asked() :: plain_words:asked().

%% @doc Says how many processes of the source still wait where the root has returned.
-spec left(iodata(), plain_report:report(), asked()) -> ok.
left(Seed, #{events := Events, rest := Rest}, _) ->
    case plain_verdict:left(Events, Rest) of
        [] -> ok;
        [_] -> plain_command:complain(["pulsefarm-erl: 1 process still waits although the root returned", Seed, "\n"]);
        Left -> plain_command:complain(["pulsefarm-erl: ", integer_to_list(length(Left)), " processes still wait although the root returned", Seed, "\n"])
    end.

%% @doc Says the status of each process, where that was asked for.
-spec explain(binary(), asked(), plain_translation:translation()) -> ok.
explain(Text, #{command := run, words := Words} = Asked, Translation) ->
    case lists:member("--explain", Words) of
        true -> lists:foreach(fun(Line) -> plain_command:complain(["pulsefarm-erl: ", Line, "\n"]) end, lines(Text, Asked, Translation));
        false -> ok
    end;
explain(_, _, _) -> ok.

%% @doc A line for each process, by its number: what it runs, and its status. The services are there only where all is reported.
-spec lines(binary(), asked(), plain_translation:translation()) -> [iodata()].
lines(Text, Asked, #{names := Names} = Translation) ->
    #{events := Events} = plain_answer:report(Text),
    Reported = plain_answer:replayed(Asked, Translation, Events),
    Hidden = case maps:get(verbose, Asked, false) of true -> []; false -> plain_verdict:services(Events) end,
    [[io_lib:format("<~w> ~ts", [P, role(P, Reported)]), status_of(P, Events, Reported, Names)] || P <- [0 | plain_verdict:spawned(Events)] -- Hidden, of_source(P, Reported, Asked)].

%% Whether a process is shown: the helpers of services aren't.
-spec of_source(non_neg_integer(), plain_answer:reported(), asked()) -> boolean().
of_source(P, Reported, Asked) -> maps:get(verbose, Asked, false) orelse not lists:prefix("the service", lists:flatten(io_lib:format("~ts", [role(P, Reported)]))).

-spec role(non_neg_integer(), plain_answer:reported()) -> unicode:chardata().
role(P, Reported) ->
    case plain_answer:role(P, Reported) of
        unknown -> "";
        "not begun" -> "";
        Role -> [Role, " "]
    end.

-spec status_of(non_neg_integer(), [plain_report:event()], plain_answer:reported(), map()) -> iodata().
status_of(P, Events, Reported, Names) ->
    Own = [Label || #{subject := {turn, Q}, label := Label} <- Events, Q =:= P],
    case {[{Number, Reason, How} || {Number, Q, Reason, How} <- plain_answer:ends(Events), Q =:= P], Own} of
        {[{_, _, {by, A}} | _], _} -> io_lib:format("was ended by an exit signal of <~w>", [A]);
        {[{_, <<"normal">>, own} | _], _} -> "ended normally";
        {[{Number, Reason, own} | _], _} ->
            {Class, Said} = plain_answer:reason(Reason, Names),
            [case plain_answer:orderly(Reason) of true -> "ended "; false -> "failed " end, plain_answer:where(Number, P, Reason, Events, Reported), Class, " ", Said];
        {[], []} -> "has not begun";
        {[], _} ->
            case {lists:last(Own), maps:get(P, plain_answer:last_places(Events, Reported), none)} of
                {<<"wait">>, {Kind, _, _, _} = Place} when Kind =:= user; Kind =:= called -> ["waits at ", plain_words_back:place(Place)];
                {<<"wait">>, _} -> "waits in the library";
                _ -> "could go on"
            end
    end.
