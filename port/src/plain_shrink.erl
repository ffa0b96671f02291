%% @doc Shrinking that keeps the failure and not only the property: the place and the reason of the crash, or the kind of the outcome. A
%% schedule is taken where its run fails so, has no more events than the one that it began from, and has fewer switches of process, or as many
%% and fewer events. Each run counts; the candidates are the same run with fewer switches, and the schedule without pieces of it, large ones first.
-module(plain_shrink).
-export([found/5, shrink/2]).

-type asked() :: plain_words:asked().
-type translation() :: plain_translation:translation().
%% A failing run: its schedule, its report as text, and how it fails.
-type run() :: #{schedule := [non_neg_integer()], text := binary(), failure := failure(), size := {non_neg_integer(), non_neg_integer()}}.
%% The kind of the outcome, with whether a time passes while others may go, and the reason of the first crash, and its place, which is asked for where all
%% else is the same.
-type failure() :: {kind(), binary() | none, fun(() -> binary())}.
-type kind() :: {binary(), boolean()}.
-type place() :: {file:filename(), asked(), translation()}.

%% @doc Shrinks what a hunt found, and reports it.
-spec found(binary(), file:filename(), string(), asked(), translation()) -> 0..255.
found(Text, File, Runs, Asked, Translation) ->
    #{events := Events} = plain_answer:report(Text),
    {match, [Head]} = re:run(Text, <<"^(seed [0-9]+\\n(?:strategy [a-z]+\\n)?)">>, [{capture, [1], binary}]),
    reported(Head, plain_report:choices(Events), Runs, {File, Asked, Translation}).

%% @doc Shrinks the schedule that is given.
-spec shrink(asked(), translation()) -> 0..255.
shrink(#{words := Words} = Asked, #{text := Text} = Translation) ->
    case schedule(plain_words:value("--schedule", Words, none)) of
        {ok, Schedule} ->
            plain_farm:with_file(Text, fun(File) -> reported(<<>>, Schedule, plain_words:value("--runs", Words, "300"), {File, Asked, Translation}) end);
        {error, Sentence} -> complained(Sentence)
    end.

-spec complained(iodata()) -> 2.
complained(Sentence) ->
    plain_command:complain(["pulsefarm-erl: ", Sentence, "\n"]),
    2.

-spec schedule(string() | none) -> {ok, [non_neg_integer()]} | {error, iodata()}.
schedule(none) -> {error, "shrink wants --schedule L, or --schedule @FILE"};
schedule([$@ | File]) ->
    case file:read_file(File) of
        {ok, Text} ->
            case re:run(Text, <<"^schedule (.*)$">>, [multiline, global, {capture, [1], list}]) of
                {match, Found} -> numbers(hd(lists:last(Found)));
                nomatch -> numbers(string:trim(binary_to_list(Text)))
            end;
        {error, Reason} -> {error, [File, ": ", file:format_error(Reason)]}
    end;
schedule(Text) -> numbers(Text).

-spec numbers(string()) -> {ok, [non_neg_integer()]} | {error, iodata()}.
numbers("none") -> {ok, []};
numbers(Text) ->
    try {ok, [list_to_integer(Number) || Number <- string:split(Text, ",", all)]}
    catch error:badarg -> {error, "the schedule is numbers with commas between them, or none"}
    end.

-spec reported(binary(), [non_neg_integer()], string(), place()) -> 0..255.
reported(Head, Schedule, Text, {_, Asked, Translation} = Place) ->
    case string:to_integer(Text) of
        {Runs, ""} when is_integer(Runs), Runs >= 1 ->
            case run(Schedule, Place) of
                {fails, First} ->
                    {Best, Word} = begin_with(First, Runs, Place),
                    #{schedule := Choices, text := Report} = Best,
                    Written = case Choices of [] -> "none"; _ -> lists:join(",", [integer_to_list(C) || C <- Choices]) end,
                    Whole = iolist_to_binary([Head, "schedule ", Written, "\n", Word, "\n", Report]),
                    plain_json:put(plain_answer:lines(Whole, Asked, Translation), Asked),
                    1;
                {other, Report} ->
                    plain_json:put([{"S1", plain_json:of_line(<<"S1">>)} | plain_answer:lines(Report, Asked, Translation)], Asked),
                    2;
                {answer, Answer} -> plain_command:reported(Answer, Asked, Translation)
            end;
        _ -> complained(["a number of runs from 1 on is wanted, and not ", Text])
    end.

%% One run by a schedule; its schedule is that of its choices.
-spec run([non_neg_integer()], place()) -> {fails, run()} | {other, binary()} | {answer, {binary(), 0..255} | missing}.
run(Schedule, {File, #{words := Words} = Asked, Translation}) ->
    Property = plain_verdict:asked(Asked),
    Judged = case plain_verdict:own(Property) of true -> "returns"; false -> Property end,
    Edition = case plain_words:value("--edition", Words, none) of none -> []; E -> ["--edition", E] end,
    Text = ["schedule ", case Schedule of [] -> "none"; _ -> lists:join(",", [integer_to_list(C) || C <- Schedule]) end, "\n"],
    Answer = plain_farm:with_file(Text, fun(Named) ->
        plain_farm:call(plain_words:base("run", File, Asked, Translation, Judged) ++ Edition ++ ["--schedule", "@" ++ Named])
    end),
    case Answer of
        {Report, Status} when Status < 2 ->
            #{events := Events} = Read = plain_answer:report(Report),
            Verdict = case {plain_verdict:own(Property), plain_verdict:gaps(Events), Status} of
                {true, _, _} -> plain_verdict:of_run(Property, Read, Asked, Translation);
                {false, [_ | _], _} -> refused;
                {false, [], 1} -> fails;
                {false, [], 0} -> holds
            end,
            case Verdict of
                fails ->
                    Reported = re:replace(Report, <<"^property (holds|fails)$">>, <<"property fails">>, [multiline, {return, binary}]),
                    {fails, #{schedule => plain_report:choices(Events), text => Reported, failure => failure(Read, Asked, Translation),
                              size => {plain_order:switches(Events), length(Events)}}};
                _ -> {other, Report}
            end;
        _ -> {answer, Answer}
    end.

%% How a run fails.
-spec failure(plain_report:report(), asked(), translation()) -> failure().
failure(#{events := Events, rest := Rest}, Asked, Translation) ->
    [Word | _] = binary:split(plain_verdict:outcome(Rest), <<" ">>),
    Kind = {Word, plain_time:early(Events)},
    Crashes = [End || {_, _, Reason, own} = End <- plain_answer:ends(Events), not plain_answer:orderly(Reason)],
    case Crashes of
        [{Number, P, Reason, own} | _] ->
            Place = fun() -> iolist_to_binary(plain_answer:where(Number, P, Reason, Events, plain_answer:replayed(Asked, Translation, Events))) end,
            {Kind, steady(Reason), Place};
        [] -> {Kind, none, fun() -> <<>> end}
    end.

%% A reason without what is numbered anew in each run.
-spec steady(binary()) -> binary().
steady(Reason) ->
    Pids = re:replace(Reason, <<"<[0-9]+>">>, <<"<>">>, [global, {return, binary}]),
    re:replace(Pids, <<"#Ref<[0-9]+>">>, <<"#Ref<>">>, [global, {return, binary}]).

%% The run with fewer switches, and what its pieces leave.
-spec begin_with(run(), pos_integer(), place()) -> {run(), string()}.
begin_with(#{failure := {Kind, Reason, Where}, size := {_, Most}} = First, Runs, Place) ->
    Failure = {Kind, Reason, Where()},
    {Best, Left} = smoother(First, Failure, Most, Runs - 1, Place),
    pieces(max(1, length(maps:get(schedule, Best)) div 2), Best, {Failure, Most}, Left, Place).

%% The same run with fewer switches, where it is one that fails so.
-spec smoother(run(), {kind(), binary() | none, binary()}, non_neg_integer(), non_neg_integer(), place()) -> {run(), non_neg_integer()}.
smoother(Best, _, _, 0, _) -> {Best, 0};
smoother(#{text := Text} = Best, Failure, Most, Left, Place) ->
    #{events := Events} = plain_answer:report(Text),
    case plain_order:fewer_switches(Events) of
        {ok, Schedule} -> {better(run(Schedule, Place), Best, Failure, Most), Left - 1};
        unknown -> {Best, Left}
    end.

%% The new run where it fails in the same way and is smaller, else the one before.
-spec better({fails, run()} | {other, binary()} | {answer, term()}, run(), {kind(), binary() | none, binary()}, non_neg_integer()) -> run().
better({fails, #{failure := {Kind, Reason, Where}, size := {_, Events} = Size} = New}, #{size := Known} = Best, {Kind, Reason, Place}, Most) when Events =< Most, Size < Known ->
    case Where() of
        Place -> New;
        _ -> Best
    end;
better(_, Best, _, _) -> Best.

%% Pieces of a length are left out, from the front; then pieces of half of it.
-spec pieces(pos_integer(), run(), {{kind(), binary() | none, binary()}, non_neg_integer()}, non_neg_integer(), place()) -> {run(), string()}.
pieces(_, Best, _, 0, _) -> {Best, "partial"};
pieces(Length, #{schedule := Schedule} = Best, Wanted, Left, Place) ->
    case without_pieces(0, Length, Best, Wanted, Left, Place) of
        {Last, 0} -> {Last, "partial"};
        {#{schedule := Schedule} = Last, Other} when Length > 1 -> pieces(Length div 2, Last, Wanted, Other, Place);
        {#{schedule := Schedule} = Last, _} -> {Last, "complete"};
        {Last, Other} -> pieces(max(1, min(Length, length(maps:get(schedule, Last)) div 2)), Last, Wanted, Other, Place)
    end.

-spec without_pieces(non_neg_integer(), pos_integer(), run(), {{kind(), binary() | none, binary()}, non_neg_integer()}, non_neg_integer(), place()) -> {run(), non_neg_integer()}.
without_pieces(_, _, Best, _, 0, _) -> {Best, 0};
without_pieces(At, Length, #{schedule := Schedule} = Best, {Failure, Most} = Wanted, Left, Place) ->
    case At >= length(Schedule) of
        true -> {Best, Left};
        false ->
            {Before, Rest} = lists:split(At, Schedule),
            Shorter = Before ++ lists:nthtail(min(Length, length(Rest)), Rest),
            case better(run(Shorter, Place), Best, Failure, Most) of
                Best -> without_pieces(At + Length, Length, Best, Wanted, Left - 1, Place);
                New ->
                    {Smoother, Fewer} = smoother(New, Failure, Most, Left - 1, Place),
                    without_pieces(At, Length, Smoother, Wanted, Fewer, Place)
            end
    end.
