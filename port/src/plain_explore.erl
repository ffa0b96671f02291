%% @doc Explorations: all schedules of a program, in virtual time those by which its clock goes last. The farm explores by its own properties,
%% one after the other, which fail in all the runs that the property that is asked for may fail in; what it finds is judged here.
-module(plain_explore).
-export([explore/2]).

-type asked() :: plain_words:asked().
-type translation() :: plain_translation:translation().

%% @doc Explores by the property, and reports what was found.
-spec explore(asked(), translation()) -> 0..255.
explore(Asked, #{text := Text} = Translation) ->
    plain_farm:with_file(Text, fun(File) -> in_turn(properties(plain_verdict:asked(Asked)), [], File, Asked, Translation) end).

%% The properties of the farm that together are one of ours.
-spec properties(string()) -> [string()].
properties("sound") -> ["returns", "nocrash"];
properties("supervised") -> ["nocrash"];
properties(Property) -> [Property].

%% The answers so far say that nothing fails, each by a property.
-spec in_turn([string()], [binary()], file:filename(), asked(), translation()) -> 0..255.
in_turn([], Said, _, Asked, _) -> reported(least(Said), Asked);
in_turn([Property | Others], Said, File, #{words := Words} = Asked, Translation) ->
    case plain_farm:call(plain_words:base("explore", File, Asked, Translation, Property) ++ plain_words:last(Words, Translation) ++ Words) of
        {Text, Status} when Status =:= 0; Status =:= 3 -> in_turn(Others, [Text | Said], File, Asked, Translation);
        {<<"schedule ", _/binary>> = Text, 1} -> found(Property, Text, Asked, Translation);
        Answer -> plain_command:reported(Answer, Asked, Translation)
    end.

%% A schedule that fails by a property of the farm. Where it holds by ours, an exploration has no more to say: it ends with the first.
-spec found(string(), binary(), asked(), translation()) -> 0..255.
found(Property, Text, Asked, Translation) ->
    Asks = plain_verdict:asked(Asked),
    case plain_verdict:own(Asks) andalso plain_verdict:of_run(Asks, plain_answer:report(Text), Asked, Translation) of
        holds ->
            reported(<<"not all seen: a schedule has an end that is none of ours\n">>, Asked),
            plain_command:complain(["pulsefarm-erl: explore goes on after no run that fails ", Property, " of pulsefarm and holds here; hunt does\n"]),
            3;
        _ -> plain_command:reported({Text, 1}, Asked, Translation)
    end.

%% Of the answers the one that says least: an exploration that hasn't seen all, with the fewest deviations.
-spec least([binary()]) -> binary().
least(Said) ->
    {_, Text} = lists:min([{seen(Text), Text} || Text <- Said]),
    Text.

%% How many deviations an exploration went through; more than any number where it has seen all.
-spec seen(binary()) -> integer() | all.
seen(Text) ->
    case {re:run(Text, <<"^no schedule fails">>), re:run(Text, <<"with at most ([0-9]+) deviations">>, [{capture, [1], binary}])} of
        {{match, _}, _} -> all;
        {nomatch, {match, [Number]}} -> binary_to_integer(Number);
        {nomatch, nomatch} -> -1
    end.

-spec reported(binary(), asked()) -> 0 | 3.
reported(Text, Asked) ->
    Lines = binary:split(Text, <<"\n">>, [global, trim]),
    plain_json:put([{Line, object(Line)} || Line <- Lines], Asked),
    case seen(Text) of all -> 0; _ -> 3 end.

%% The line as an object, as pulsefarm has it.
-spec object(binary()) -> plain_json:object().
object(Line) ->
    Number = fun(Expression, Key) ->
        case re:run(Line, Expression, [{capture, [1], binary}]) of
            {match, [Digits]} -> [{Key, binary_to_integer(Digits)}];
            nomatch -> []
        end
    end,
    Word = fun(Expression, Key) -> [{Key, true} || re:run(Line, Expression) =/= nomatch] end,
    [{failure, false} || seen(Line) =:= all] ++ Word(<<"\\(budget\\)">>, budget) ++ Word(<<"\\(time\\)">>, time) ++ Word(<<"^not all seen">>, unseen)
        ++ Number(<<": ([0-9]+) runs">>, runs) ++ Number(<<"at most ([0-9]+) steps">>, steps) ++ Number(<<"at most ([0-9]+) deviations">>, deviations).
