%% @doc How a run is judged here. The farm has its own properties; those of plain Erlang are judged by reports.
%%
%% `sound' holds where the root returns and no process crashes. `supervised' holds where no process crashes, whatever becomes of the root. A
%% crash is an end by an error, or by a reason other than normal, shutdown, {shutdown, _}, or killed by a supervisor. Where a process
%% came to what the translator lacks, there is no verdict: the run is refused. With `--leaks' a run fails too whose root returns and leaves
%% processes of the source that wait. With `--one-node' a failure in which signals crossed as one node doesn't show it is none.
-module(plain_verdict).
-export([own/1, asked/1, of_run/4, gaps/1, left/2, spawned/1, services/1, outcome/1]).
-export_type([verdict/0]).

-type verdict() :: holds | fails | crossed | refused.

%% @doc Whether a property is one that is judged here.
-spec own(string()) -> boolean().
own(Property) -> Property =:= "sound" orelse Property =:= "supervised".

%% @doc The property of a command: what was named, or `sound'. All outcomes are counted by a property of the farm.
-spec asked(plain_words:asked()) -> string().
asked(#{property := none, words := Words}) -> case lists:member("--all", Words) of true -> "nocrash"; false -> "sound" end;
asked(#{property := Property}) -> Property.

%% @doc The verdict of a report by one of these properties.
-spec of_run(string(), plain_report:report(), plain_words:asked(), plain_translation:translation()) -> verdict().
of_run(Property, #{events := Events, rest := Rest}, Asked, Translation) ->
    Hangs = Property =:= "sound" andalso not returned(outcome(Rest)),
    Leaks = lists:member("--leaks", maps:get(words, Asked)) andalso left(Events, Rest) =/= [],
    case {gaps(Events), Hangs orelse Leaks} of
        {[_ | _], _} -> refused;
        {[], true} -> failing(Events, Asked);
        {[], false} -> case crashed(Events, Asked, Translation) of true -> failing(Events, Asked); false -> holds end
    end.

-spec failing([plain_report:event()], plain_words:asked()) -> fails | crossed.
failing(Events, Asked) ->
    case maps:get(one_node, Asked, false) andalso plain_one_node:crossed(Events) of
        true -> crossed;
        false -> fails
    end.

%% @doc The processes that wait where the root has returned, but for the services of the translation. Nobody else may go then.
-spec left([plain_report:event()], [binary()]) -> [non_neg_integer()].
left(Events, Rest) ->
    case returned(outcome(Rest)) of
        true -> (spawned(Events) -- [P || {_, P, _, _} <- plain_answer:ends(Events)]) -- services(Events);
        false -> []
    end.

%% @doc The processes of a run but for its root.
-spec spawned([plain_report:event()]) -> [pos_integer()].
spawned(Events) ->
    [binary_to_integer(P) || #{subject := {turn, _}, label := Label} <- Events,
                             {match, [P]} <- [re:run(Label, <<"^spawn(?:_link|_monitor)? <([0-9]+)>">>, [{capture, [1], binary}])]].

%% @doc The services, which have names that no source may have.
-spec services([plain_report:event()]) -> [non_neg_integer()].
services(Events) ->
    [binary_to_integer(P) || #{subject := {turn, _}, label := Label} <- Events,
                             {match, [P]} <- [re:run(Label, <<"^register port@[a-z]+ <([0-9]+)>">>, [{capture, [1], binary}])]].

%% @doc The line of a report with the outcome.
-spec outcome([binary()]) -> binary().
outcome([Line | _]) -> Line;
outcome([]) -> <<>>.

-spec returned(binary()) -> boolean().
returned(<<"finished ", _/binary>>) -> true;
returned(_) -> false.

%% @doc The ends by what the translator lacks: the number of the event, the process, and what it came to.
-spec gaps([plain_report:event()]) -> [{pos_integer(), non_neg_integer(), binary()}].
gaps(Events) -> [{Number, P, Lacked} || {Number, P, Reason, own} <- plain_answer:ends(Events), {ok, Lacked} <- [gap(Reason)]].

-spec gap(binary()) -> {ok, binary()} | no.
gap(Reason) ->
    case re:run(Reason, <<"^\\{refused,('[^']*'|[a-z][A-Za-z0-9_@]*),('[^']*'|[a-z][A-Za-z0-9_@]*),([0-9]+)\\}$">>, [{capture, all_but_first, binary}]) of
        {match, [Module, Function, Arity]} -> {ok, <<Module/binary, ":", Function/binary, "/", Arity/binary>>};
        nomatch ->
            case re:run(Reason, <<"^\\{refused,'receive',[0-9]+\\}$">>) of
                {match, _} -> {ok, <<"a message that this receive should leave in the mailbox">>};
                nomatch -> no
            end
    end.

-spec crashed([plain_report:event()], plain_words:asked(), plain_translation:translation()) -> boolean().
crashed(Events, Asked, Translation) ->
    Ends = [crash(Reason, How) || {_, _, Reason, How} <- plain_answer:ends(Events)],
    case {lists:member(yes, Ends), [A || {killed_by, A} <- Ends]} of
        {true, _} -> true;
        {false, []} -> false;
        {false, Killers} ->
            Reported = plain_answer:replayed(Asked, Translation, Events),
            lists:any(fun(A) -> iolist_to_binary(io_lib:format("~ts", [plain_answer:role(A, Reported)])) =/= <<"supervisor">> end, Killers)
    end.

-spec crash(binary(), own | {by, non_neg_integer()}) -> yes | no | {killed_by, non_neg_integer()}.
crash(<<"killed">>, {by, A}) -> {killed_by, A};
crash(Reason, _) -> case plain_answer:orderly(Reason) of true -> no; false -> yes end.
