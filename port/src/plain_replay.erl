%% @doc Where a run was at each event: the run once more, in the traced form, by the choices of its report. The traced form names a place
%% before each action, so each such choice is taken twice. What comes is held against the report, event by event; where it differs in
%% anything but places, nothing is reported.
-module(plain_replay).
-export([places/4, steps/2, same/3]).

-type place() :: plain_translation:place().
%% For each event the mark before it; for each process the mark at its beginning; for ends of functions without a clause their arguments.
-type reported() :: #{events := [binary() | none], begins := #{non_neg_integer() => binary()}, arguments := #{pos_integer() => binary()}}.
-type step() :: {mark | start | event, plain_report:event(), boolean()}.
-export_type([reported/0, place/0]).

%% @doc The marks of a run, by its events.
-spec places([file:filename()], plain_translation:options(), string(), [plain_report:event()]) ->
    {ok, reported(), plain_translation:translation()} | unknown.
places(Files, Options, Root, Events) ->
    case lists:any(fun(#{label := Label}) -> binary:match(Label, <<"end {function_clause,[]">>) =/= nomatch end, Events) of
        true ->
            case placed(Files, Options#{arguments := true}, Root, Events) of
                unknown -> placed(Files, Options, Root, Events); % with their arguments values may be too large
                Reported -> Reported
            end;
        false -> placed(Files, Options, Root, Events)
    end.

-spec placed([file:filename()], plain_translation:options(), string(), [plain_report:event()]) ->
    {ok, reported(), plain_translation:translation()} | unknown.
placed(Files, Options, Root, Events) ->
    case traced(Files, Options) of
        {ok, #{text := Text} = Traced} ->
            case plain_farm:with_file(Text, fun(File) -> replay(File, Root, Events, [], 8) end) of
                {ok, Reported} -> {ok, Reported, Traced};
                unknown -> unknown
            end;
        {refused, _} -> unknown
    end.

%% The traced form of these files, which is made once.
-spec traced([file:filename()], plain_translation:options()) -> {ok, plain_translation:translation()} | {refused, [plain_translation:refusal()]}.
traced(Files, Options) ->
    case get({?MODULE, Files, Options}) of
        undefined ->
            Traced = plain_translation:translate(Files, Options#{traced := true}),
            _ = put({?MODULE, Files, Options}, Traced),
            Traced;
        Traced -> Traced
    end.

%% An error that the library runs into has no mark before the end of its process; which ends have none is found by trying.
-spec replay(file:filename(), string(), [plain_report:event()], [non_neg_integer()], non_neg_integer()) -> {ok, reported()} | unknown.
replay(_, _, _, _, 0) -> unknown;
replay(File, Root, Events, Unmarked, Tries) ->
    Steps = steps(Events, Unmarked),
    Schedule = lists:join(",", [integer_to_list(Choice) || {_, #{choice := Choice}, _} <- Steps]),
    case run(File, Root, Schedule) of
        {ok, Seen, Limited} ->
            case compare(Steps, Seen, 0) of
                {differ, _, end_of_run} when Limited -> {ok, reported(Steps, Seen, nothing(), none)};
                same -> {ok, reported(Steps, Seen, nothing(), none)};
                {differ, Number, _} when is_integer(Number) ->
                    case lists:member(Number, Unmarked) of
                        true -> unknown;
                        false -> replay(File, Root, Events, [Number | Unmarked], Tries - 1)
                    end;
                {differ, none, _} -> unknown
            end;
        unknown -> unknown
    end.

%% The events of the traced run, and whether the limit of steps ended it, since it takes more of them.
-spec run(file:filename(), string(), iolist()) -> {ok, [plain_report:event()], boolean()} | unknown.
run(File, Root, Schedule) ->
    Words = fun(Given) -> ["run", File, "--root", Root, "--limit", "100000", "--schedule", Given] end,
    Answer = plain_farm:with_file(["schedule ", Schedule, "\n"], fun(Named) -> plain_farm:call(Words("@" ++ Named)) end),
    case Answer of
        {Text, Status} when Status < 2 ->
            #{events := Seen, rest := Rest} = plain_report:read(binary:split(Text, <<"\n">>, [global])),
            {ok, [Event || #{label := Label} = Event <- Seen, Label =/= <<"cut">>], hd(Rest) =:= <<"limit">>};
        _ -> unknown
    end.

%% The events of the traced run that are to come: marks, and the events of the report.
-spec steps([plain_report:event()], [non_neg_integer()]) -> [step()].
steps(Events, Unmarked) ->
    {Steps, _} = lists:foldl(fun(Event, {Before, State}) ->
        {New, After} = step(Event, Unmarked, State),
        {[New | Before], After}
    end, {[], #{number => 0, last => #{0 => begun}}}, Events),
    lists:append(lists:reverse(Steps)).

-spec step(plain_report:event(), [non_neg_integer()], map()) -> {[step()], map()}.
step(#{subject := {delivery, _, _}} = Event, _, #{number := Number} = State) -> {[{event, Event, false}], State#{number := Number + 1}};
step(#{subject := {turn, Process}, label := Label} = Event, Unmarked, #{number := Number, last := Last} = State) ->
    Kind = kind(Label),
    Before = maps:get(Process, Last, none),
    Marked = case {Kind, Before} of
        {'end', raise} -> false;
        {'end', _} -> not lists:member(Number, Unmarked);
        {cut, _} -> false;
        {_, wait} -> false;
        _ -> true
    end,
    Steps = [{start, Event, false} || Before =:= none] ++ [{mark, Event, false} || Marked] ++ [{event, Event, Kind =:= 'end'}],
    {Steps, State#{number := Number + 1, last := Last#{Process => Kind}}}.

-spec kind(binary()) -> atom().
kind(<<"end ", _/binary>>) -> 'end';
kind(<<"raise ", _/binary>>) -> raise;
kind(<<"wait">>) -> wait;
kind(<<"cut">>) -> cut;
kind(_) -> action.

%% Whether what came is what was to come; else the number of the event before which it differs, where that is an end.
-spec compare([step()], [plain_report:event()], non_neg_integer()) -> same | {differ, non_neg_integer() | none, event | end_of_run}.
compare([], _, _) -> same;
compare([{event, #{label := <<"cut">>}, _}], _, _) -> same;
compare([{What, Wanted, End} | Steps], [Seen | Later], Number) ->
    case same(What, Wanted, Seen) of
        true -> compare(Steps, Later, case What of event -> Number + 1; _ -> Number end);
        false -> {differ, differing(What, Wanted, End, Number), event}
    end;
compare([{What, Wanted, End} | _], [], Number) -> {differ, differing(What, Wanted, End, Number), end_of_run}.

-spec differing(mark | start | event, plain_report:event(), boolean(), non_neg_integer()) -> non_neg_integer() | none.
differing(mark, #{label := <<"end ", _/binary>>}, _, Number) -> Number;
differing(_, _, _, _) -> none.

-spec same(mark | start | event, plain_report:event(), plain_report:event()) -> boolean().
same(event, #{choice := Choice, among := Among, subject := Subject, label := Label}, Seen) ->
    #{choice := SeenChoice, among := SeenAmong, subject := SeenSubject, label := SeenLabel} = Seen,
    {Choice, Among, Subject, bare(Label)} =:= {SeenChoice, SeenAmong, SeenSubject, bare(SeenLabel)};
same(_, #{choice := Choice, among := Among, subject := Subject}, #{choice := SeenChoice, among := SeenAmong, subject := SeenSubject, label := Label}) ->
    {Choice, Among, Subject} =:= {SeenChoice, SeenAmong, SeenSubject} andalso binary:part(Label, 0, min(8, byte_size(Label))) =:= <<"whereis ">>.

%% A label without stack traces, which are places in the traced form, and without the names of funs, which are numbered in each form.
-spec bare(binary()) -> binary().
bare(Label) ->
    Empty = without_arguments(re:replace(Label, <<"\\['@[0-9]+'\\]">>, <<"[]">>, [global, {return, binary}])),
    re:replace(Empty, <<"{'#fun',([0-9]+),('[^']*'|[A-Za-z0-9_@]+)">>, <<"{'#fun',\\1,f">>, [global, {return, binary}]).

%% A label without the stack traces that have arguments after the place.
-spec without_arguments(binary()) -> binary().
without_arguments(Label) ->
    case re:run(Label, <<"\\['@[0-9]+',">>, [{capture, first, index}]) of
        {match, [{At, Length}]} ->
            <<Before:At/binary, _:Length/binary, Rest/binary>> = Label,
            case plain_words_back:after_term(Rest) of
                {ok, <<"]", Later/binary>>} -> <<Before/binary, "[]", (without_arguments(Later))/binary>>;
                _ -> Label
            end;
        nomatch -> Label
    end.

-spec nothing() -> reported().
nothing() -> #{events => [], begins => #{}, arguments => #{}}.

-spec reported([step()], [plain_report:event()], reported(), binary() | none) -> reported().
reported([], _, #{events := Events} = Reported, _) -> Reported#{events := lists:reverse(Events)};
reported(Steps, [], #{events := Events} = Reported, _) -> Reported#{events := lists:reverse(Events) ++ [none || {event, _, _} <- Steps]};
reported([{start, #{subject := {turn, Process}}, _} | Steps], [#{label := <<"whereis ", Mark/binary>>} | Seen], #{begins := Begins} = Reported, Last) ->
    reported(Steps, Seen, Reported#{begins := Begins#{Process => Mark}}, Last);
reported([{mark, _, _} | Steps], [#{label := <<"whereis ", Mark/binary>>} | Seen], Reported, _) -> reported(Steps, Seen, Reported, Mark);
reported([{event, _, End} | Steps], [#{label := Label} | Seen], #{events := Events, arguments := Arguments} = Reported, Last) ->
    Mark = case End andalso re:run(Label, <<"\\[('@[0-9]+')[],]">>, [{capture, [1], binary}]) of
        {match, [Place]} -> Place;
        _ -> Last
    end,
    Known = case End andalso re:run(Label, <<"^end \\{function_clause,\\['@[0-9]+',\\{(.*)\\}\\]\\}$">>, [{capture, [1], binary}]) of
        {match, [Found]} -> Arguments#{length(Events) + 1 => Found};
        _ -> Arguments
    end,
    reported(Steps, Seen, Reported#{events := [Mark | Events], arguments := Known}, none).
