%% @doc Reports of pulsefarm: the events of a run, its outcome and its verdict.
-module(plain_report).
-export([read/1, choices/1]).

-type subject() :: {turn, non_neg_integer()} | {delivery, non_neg_integer(), non_neg_integer()}.
-type event() :: #{choice := non_neg_integer(), among := pos_integer(), subject := subject(), label := binary()}.
-type report() :: #{events := [event()], rest := [binary()]}.
-export_type([event/0, report/0, subject/0]).

%% @doc A report by its lines: its events, and the lines after them.
-spec read([binary()]) -> report().
read(Lines) ->
    {Events, Rest} = lists:splitwith(fun is_event/1, Lines),
    #{events => [event(Line) || Line <- Events], rest => Rest}.

-spec is_event(binary()) -> boolean().
is_event(<<C, _/binary>>) -> C >= $0 andalso C =< $9;
is_event(_) -> false.

-spec event(binary()) -> event().
event(Line) ->
    [Numbers, Who, Label] = split(Line),
    [Choice, Among] = binary:split(Numbers, <<"/">>),
    #{choice => binary_to_integer(Choice), among => binary_to_integer(Among), subject => subject(Who), label => Label}.

-spec split(binary()) -> [binary()].
split(Line) ->
    [Numbers, Rest] = binary:split(Line, <<" ">>),
    [Who, Label] = binary:split(Rest, <<" ">>),
    [Numbers, Who, Label].

-spec subject(binary()) -> subject().
subject(Who) ->
    case binary:split(Who, <<"->">>) of
        [Pid] -> {turn, number(Pid)};
        [From, To] -> {delivery, number(From), number(To)}
    end.

-spec number(binary()) -> non_neg_integer().
number(Pid) -> binary_to_integer(binary:part(Pid, 1, byte_size(Pid) - 2)).

%% @doc The choices of a report, which are a schedule.
-spec choices([event()]) -> [non_neg_integer()].
choices(Events) -> [Choice || #{choice := Choice} <- Events].
