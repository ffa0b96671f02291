%% @doc A chart without some of its rows and columns: those that stay close up. A row is an event, a column a process.
-module(plain_chart_rows).
-export([hidden/3, without/3]).

-type event() :: plain_report:event().
%% How far what is there moves: the centres of rows and columns that are hidden, and how much each takes.
-type moves() :: #{rows := [integer()], high := integer(), columns := [integer()], wide := integer()}.

%% @doc The events that aren't shown: what a story leaves out, but for ends, and deliveries of what is shown to whom is
%% shown.
-spec hidden([event()], #{pos_integer() => true}, {[non_neg_integer()], [binary()]}) -> #{pos_integer() => true}.
hidden(Events, Shown, {Services, Lines}) ->
    Numbered = lists:zip(lists:seq(1, length(Events)), Events),
    Sent = maps:from_list(lists:append([pair(Line) || Line <- Lines])),
    Own = maps:from_list([{Number, true} || {Number, #{subject := {turn, _}} = Event} <- Numbered,
                                            not is_shown(Number, Event, Shown, Services)]),
    Away = fun(Number, A, B) ->
        lists:member(A, Services) orelse lists:member(B, Services) orelse is_map_key(maps:get(Number, Sent, 0), Own)
    end,
    Delivered = [{Number, true} || {Number, #{subject := {delivery, A, B}}} <- Numbered, not is_map_key(Number, Shown),
                                   Away(Number, A, B)],
    maps:merge(Own, maps:from_list(Delivered)).

-spec is_shown(pos_integer(), event(), map(), [non_neg_integer()]) -> boolean().
is_shown(Number, #{subject := {turn, P}, label := Label}, Shown, Services) ->
    is_map_key(Number, Shown) orelse (not lists:member(P, Services) andalso re:run(Label, <<"^end ">>) =/= nomatch).

%% The delivery of an arrow and the event that it begins at.
-spec pair(binary()) -> [{integer(), integer()}].
pair(<<"<g class=\"arrow", _/binary>> = Line) ->
    case {number(Line, <<"data-event">>), number(Line, <<"data-delivery">>)} of
        {Event, Delivery} when is_integer(Event), is_integer(Delivery) -> [{Delivery, Event}];
        _ -> []
    end;
pair(_) -> [].

-spec number(binary(), binary()) -> integer() | none.
number(Line, Name) ->
    case re:run(Line, [Name, "=\"([0-9]+)\""], [{capture, [1], binary}]) of
        {match, [Number]} -> binary_to_integer(Number);
        nomatch -> none
    end.

%% @doc The lines of a chart without these events and processes.
-spec without([binary()], #{pos_integer() => true}, [non_neg_integer()]) -> [binary()].
without(Lines, Hidden, Pids) ->
    Moves = moves(Lines, Hidden, Pids),
    [moved(Line, Moves) || Line <- Lines, stays(Line, Hidden, Pids)].

-spec moves([binary()], #{pos_integer() => true}, [non_neg_integer()]) -> moves().
moves(Lines, Hidden, Pids) ->
    Rows = [Y || Line <- Lines, {Number, Y} <- row(Line), is_map_key(Number, Hidden)],
    Columns = lists:append([column(Line) || Line <- Lines]),
    Xs = [X || {_, X} <- Columns],
    Wide = case Xs of [A, B | _] -> B - A; _ -> 0 end,
    #{rows => Rows, high => 26, columns => [X || {P, X} <- Columns, lists:member(P, Pids)], wide => Wide}.

-spec row(binary()) -> [{pos_integer(), integer()}].
row(Line) ->
    Row = <<"^<g class=\"event[^>]* data-event=\"([0-9]+)\" transform=\"translate\\([0-9]+ ([0-9]+)\\)">>,
    case re:run(Line, Row, [{capture, [1, 2], binary}]) of
        {match, [Number, Y]} -> [{binary_to_integer(Number), binary_to_integer(Y)}];
        nomatch -> []
    end.

-spec column(binary()) -> [{non_neg_integer(), integer()}].
column(Line) ->
    Column = <<"^<g class=\"process[^>]* data-pid=\"([0-9]+)\".*?<text class=\"pid\" x=\"([0-9]+)\"">>,
    case re:run(Line, Column, [{capture, [1, 2], binary}]) of
        {match, [P, X]} -> [{binary_to_integer(P), binary_to_integer(X)}];
        nomatch -> []
    end.

%% Whether a line is of what is shown.
-spec stays(binary(), #{pos_integer() => true}, [non_neg_integer()]) -> boolean().
stays(<<"<g class=\"process", _/binary>> = Line, _, Pids) -> not lists:member(number(Line, <<"data-pid">>), Pids);
stays(<<"<g class=\"", _/binary>> = Line, Hidden, _) ->
    Own = [number(Line, Name) || Name <- [<<"data-event">>, <<"data-delivery">>, <<"data-receive">>]],
    not lists:any(fun(Number) -> is_map_key(Number, Hidden) end, Own);
stays(<<"<text class=\"", _/binary>> = Line, Hidden, _) ->
    case re:run(Line, <<"<text class=\"number[^>]*>([0-9]+)</text>$">>, [{capture, [1], binary}]) of
        {match, [Number]} -> not is_map_key(binary_to_integer(Number), Hidden);
        nomatch -> true
    end;
stays(_, _, _) -> true.

%% A line with its coordinates where they are then.
-spec moved(binary(), moves()) -> binary().
moved(<<"<svg ", _/binary>> = Line, Moves) -> whole(Line, Moves);
moved(<<"<rect class=\"bands\"", _/binary>> = Line, Moves) -> whole(Line, Moves);
moved(<<"<g class=\"event", _/binary>> = Line, Moves) ->
    each(Line, <<"translate\\(([0-9]+) ([0-9]+)\\)">>, [x, y], Moves);
moved(<<"<g class=\"arrow", _/binary>> = Line, Moves) ->
    each(Line, <<"(?<=[MLC ])([0-9]+) ([0-9]+)(?=[LC\" ])">>, [x, y], Moves);
moved(<<"<g class=\"process", _/binary>> = Line, Moves) ->
    each(each(Line, <<" x[12]?=\"([0-9]+)\"">>, [x], Moves), <<" y[12]?=\"([0-9]+)\"">>, [y], Moves);
moved(<<"<text ", _/binary>> = Line, Moves) -> each(Line, <<" y=\"([0-9]+)\"">>, [y], Moves);
moved(<<"<g><title>", _/binary>> = Line, Moves) -> each(Line, <<" y=\"([0-9]+)\"">>, [y], Moves);
moved(Line, _) -> Line.

%% The size of the whole.
-spec whole(binary(), moves()) -> binary().
whole(Line, #{rows := Rows, high := High, columns := Columns, wide := Wide}) ->
    Less = fun
        (Text, 1) -> integer_to_binary(max(1000, binary_to_integer(Text) - Wide * length(Columns)));
        (Text, 0) -> integer_to_binary(binary_to_integer(Text) - High * length(Rows))
    end,
    lists:foldl(fun({Expression, Number}, Before) ->
        case re:run(Before, Expression, [{capture, [1], index}]) of
            {match, [{At, Length}]} ->
                <<A:At/binary, Old:Length/binary, B/binary>> = Before,
                <<A/binary, (Less(Old, Number))/binary, B/binary>>;
            nomatch -> Before
        end
    end, Line, [{<<" width=\"([0-9]+)\"">>, 1}, {<<" height=\"([0-9]+)\"">>, 0}, {<<"viewBox=\"0 0 ([0-9]+) ">>, 1},
                {<<"viewBox=\"0 0 [0-9]+ ([0-9]+)\"">>, 0}]).

%% Each match of an expression with its numbers moved.
-spec each(binary(), binary(), [x | y], moves()) -> binary().
each(Line, Expression, Axes, Moves) ->
    case re:run(Line, Expression, [global, {capture, lists:seq(1, length(Axes)), index}]) of
        nomatch -> Line;
        {match, Found} -> replaced(Line, 0, lists:append([lists:zip(Places, Axes) || Places <- Found]), Moves)
    end.

-spec replaced(binary(), non_neg_integer(), [{{non_neg_integer(), non_neg_integer()}, x | y}], moves()) -> binary().
replaced(Line, From, [{{At, Length}, Axis} | Rest], Moves) ->
    Before = binary:part(Line, From, At - From),
    Old = binary_to_integer(binary:part(Line, At, Length)),
    After = replaced(Line, At + Length, Rest, Moves),
    <<Before/binary, (integer_to_binary(Old - less(Axis, Old, Moves)))/binary, After/binary>>;
replaced(Line, From, [], _) -> binary:part(Line, From, byte_size(Line) - From).

-spec less(x | y, integer(), moves()) -> integer().
less(y, Old, #{rows := Rows, high := High}) -> High * length([Y || Y <- Rows, Y < Old]);
less(x, Old, #{columns := Columns, wide := Wide}) -> Wide * length([X || X <- Columns, X < Old]).
