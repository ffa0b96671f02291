%% @doc Hunts by a property that is judged here. The farm hunts by its own, which fail in all the runs that this one may fail in, by the
%% strategy that it is given; each run that it finds is judged, and where it holds the hunt goes on after its seed.
-module(plain_hunt).
-export([hunt/2, mixed/2, judge/2, least/5, within/1, search/4, left_out/2, seeds/1, time/1, complained/1]).

%% How many seeds are hunted at once where a time is set.
-define(BLOCK, 250).
-define(DEFAULT, "0..1000").
-type asked() :: plain_words:asked().
-type translation() :: plain_translation:translation().
%% Seeds that are left out: signals crossed as one node doesn't show it.
-type left_out() :: [non_neg_integer()].
%% A run that fails: its seed, and what the farm said of it; or none, and the seeds that are left out.
-type found() :: {found, non_neg_integer(), binary(), plain_verdict:verdict()} | {none, left_out()} | {answer, {binary(), 0..255} | missing}.

%% The seeds of a hunt, the last left out, and when it stops.
-type within() :: {non_neg_integer(), pos_integer(), integer() | never}.
-type searched() :: {found(), non_neg_integer(), whole | stopped}.
-export_type([searched/0, within/0, found/0]).

%% @doc Hunts for the least seed whose run fails the property, and reports it.
-spec hunt(asked(), translation()) -> 0..255.
hunt(Asked, #{text := Text} = Translation) ->
    case within(Asked) of
        {no, Sentence} -> complained(Sentence);
        Within -> plain_farm:with_file(Text, fun(File) -> reported(search(Within, File, Asked, Translation), File, Asked, Translation) end)
    end.

%% @doc Hunts the first half of the seeds, or of the time, in virtual time; and where nothing is found the second by times that pass at any
%% moment. The second half has a translation of its own, which the function makes.
-spec mixed(asked(), fun((asked()) -> 0..255)) -> 0..255.
mixed(Asked, Hunt) ->
    case halves(Asked) of
        {no, Sentence} -> complained(Sentence);
        {First, Second} ->
            case Hunt(First) of
                0 ->
                    plain_command:complain("pulsefarm-erl: the second half, by --patience early:\n"),
                    Hunt(Second);
                Status -> Status
            end
    end.

-spec halves(asked()) -> {asked(), asked()} | {no, string()}.
halves(#{words := Words, options := #{library_defines := Own} = Options} = Asked) ->
    Early = fun(Half) -> Half#{options := Options#{library_defines := [{'PATIENCE', 0} | Own]}} end,
    Half = fun(Word, Value) -> Asked#{words := [Word, lists:flatten(Value) | plain_words:without([Word], Words)]} end,
    Seeds = fun(A, B) -> Half("--seeds", io_lib:format("~w..~w", [A, B])) end,
    case {within(Asked), plain_words:value("--for", Words, none)} of
        {{no, Sentence}, _} -> {no, Sentence};
        {{From, To, never}, none} when To - From < 2 -> {no, "--patience mixed wants two seeds or more"};
        {{From, To, never}, none} -> {Seeds(From, (From + To) div 2), Early(Seeds((From + To) div 2, To))};
        {_, Time} ->
            Whole = Half("--for", io_lib:format("~ws", [max(1, time(Time) div 2000)])),
            {Whole, Early(Whole)}
    end.

%% @doc The seeds that are asked for, and the time in milliseconds at which the hunt stops.
-spec within(asked()) -> within() | {no, string()}.
within(#{words := Words}) ->
    case {seeds(plain_words:value("--seeds", Words, ?DEFAULT)), time(plain_words:value("--for", Words, none))} of
        {no, _} -> {no, "--seeds wants A..B, A below B"};
        {_, no} -> {no, "--for wants a number followed by s, m or h"};
        {{From, To}, none} -> {From, To, never};
        {{From, To}, Time} ->
            Last = case plain_words:value("--seeds", Words, none) of none -> 1 bsl 62; _ -> To end,
            {From, Last, erlang:monotonic_time(millisecond) + Time}
    end.

%% @doc What a hunt finds, how many seeds it went over, and whether the time stopped it.
-spec search(within(), file:filename(), asked(), translation()) -> searched().
search({From, To, End}, File, Asked, Translation) ->
    case End =:= never andalso not plain_progress:is_shown() of
        true -> {least(From, To, File, Asked, Translation), To - From, whole};
        false ->
            Found = blocks({From, []}, From, To, End, File, Asked, Translation),
            plain_progress:clear(),
            Found
    end.

%% @doc Says why something is refused.
-spec complained(iodata()) -> 2.
complained(Sentence) ->
    plain_command:complain(["pulsefarm-erl: ", Sentence, "\n"]),
    2.

%% @doc The seeds that a text names, the last of them left out.
-spec seeds(string()) -> {non_neg_integer(), pos_integer()} | no.
seeds(Text) ->
    case re:run(Text, "^(?:([0-9]+)\\.\\.(=?))?([0-9]+)$", [{capture, all_but_first, list}]) of
        {match, [A, Closed, B]} ->
            From = case A of "" -> 0; _ -> list_to_integer(A) end,
            To = list_to_integer(B) + length(Closed),
            case From < To of true -> {From, To}; false -> no end;
        nomatch -> no
    end.

%% @doc A time in milliseconds.
-spec time(string() | none) -> non_neg_integer() | none | no.
time(none) -> none;
time(Text) ->
    case re:run(Text, "^([1-9][0-9]*)([smh])$", [{capture, all_but_first, list}]) of
        {match, [Number, Unit]} -> list_to_integer(Number) * maps:get(Unit, #{"s" => 1000, "m" => 60000, "h" => 3600000});
        nomatch -> no
    end.

%% @doc Says how many seeds are left out.
-spec left_out(iodata(), left_out()) -> ok.
left_out(_, []) -> ok;
left_out(Hunted, Seeds) ->
    plain_command:complain(["pulsefarm-erl: ", Hunted, io_lib:format("~w of these seeds fail by signals in an order that one node doesn't show, and are left out~n",
                                                                     [length(Seeds)])]),
    ok.

%% Blocks of seeds until the time is over, or all are.
-spec blocks({non_neg_integer(), left_out()}, non_neg_integer(), pos_integer(), integer() | never, file:filename(), asked(), translation()) -> searched().
blocks({First, Crossed}, From, Last, End, File, Asked, Translation) ->
    Over = From > First andalso is_integer(End) andalso erlang:monotonic_time(millisecond) >= End,
    case From >= Last orelse Over of
        true -> {{none, Crossed}, From - First, case From < Last of true -> stopped; false -> whole end};
        false ->
            Next = min(From + ?BLOCK, Last),
            plain_progress:seeds(From - First, case End of never -> Last - First; _ -> time end),
            case least(From, Next, File, Asked, Translation) of
                {none, More} -> blocks({First, Crossed ++ More}, Next, Last, End, File, Asked, Translation);
                Found -> {Found, Next - First, whole}
            end
    end.

%% @doc The least failing seed. A run that doesn't return fails `sound', and with `--leaks' one that leaves processes; what else may fail it has
%% an end that isn't normal.
-spec least(non_neg_integer(), pos_integer(), file:filename(), asked(), translation()) -> found().
least(From, To, File, #{words := Words} = Asked, Translation) ->
    case plain_verdict:asked(Asked) of
        "supervised" -> crashing(From, To, File, Asked, Translation);
        "sound" ->
            Crashes = Asked#{words := plain_words:without(["--leaks"], Words)}, % those before have no leaks
            case judged("returns", From, To, File, Asked, Translation) of
                {found, Seed, _, _} = Found when Seed > From ->
                    case crashing(From, Seed, File, Crashes, Translation) of
                        {none, _} -> Found;
                        Earlier -> Earlier
                    end;
                {none, Crossed} -> with(Crossed, crashing(From, To, File, Crashes, Translation));
                Other -> Other
            end
    end.

%% With more seeds that are left out.
-spec with(left_out(), found()) -> found().
with(Crossed, {none, More}) -> {none, lists:usort(Crossed ++ More)};
with(_, Other) -> Other.

-spec crashing(non_neg_integer(), pos_integer(), file:filename(), asked(), translation()) -> found().
crashing(From, To, File, Asked, Translation) -> judged("nocrash", From, To, File, Asked, Translation).

%% What the farm finds may hold here: an orderly end is no crash, and a service that waits is no leak; or it is left out. The hunt goes on
%% after it.
-spec judged(string(), non_neg_integer(), pos_integer(), file:filename(), asked(), translation()) -> found().
judged(_, From, To, _, _, _) when From >= To -> {none, []};
judged(Property, From, To, File, Asked, Translation) ->
    case one(Property, From, To, File, Asked, Translation) of
        {found, Seed, _, holds} -> plain_waves:first(Seed + 1, To, fun(A, B) -> in_turn(Property, A, B, File, alone(Asked), Translation) end);
        {found, Seed, _, crossed} -> with([Seed], judged(Property, Seed + 1, To, File, Asked, Translation));
        Other -> Other
    end.

%% The same, by one hunt after the other.
-spec in_turn(string(), non_neg_integer(), pos_integer(), file:filename(), asked(), translation()) -> found().
in_turn(_, From, To, _, _, _) when From >= To -> {none, []};
in_turn(Property, From, To, File, Asked, Translation) ->
    case one(Property, From, To, File, Asked, Translation) of
        {found, Seed, _, holds} -> in_turn(Property, Seed + 1, To, File, Asked, Translation);
        {found, Seed, _, crossed} -> with([Seed], in_turn(Property, Seed + 1, To, File, Asked, Translation));
        Other -> Other
    end.

%% Ranges beside each other have a thread each.
-spec alone(asked()) -> asked().
alone(#{words := Words} = Asked) -> Asked#{words := ["--workers", "1" | plain_words:without(["--workers"], Words)]}.

%% One hunt of the farm, and the verdict of what it finds.
-spec one(string(), non_neg_integer(), pos_integer(), file:filename(), asked(), translation()) -> found().
one(Property, From, To, File, #{words := Words} = Asked, Translation) ->
    Given = plain_words:without(["--seeds", "--for", "--shrink", "--test", "--junit", "--all-roots", "--fail-fast"], Words),
    Seeds = lists:flatten(io_lib:format("~w..~w", [From, To])),
    case plain_farm:call(plain_words:base("hunt", File, Asked, Translation, Property) ++ plain_words:last(Words, Translation) ++ ["--seeds", Seeds | Given]) of
        {_, 0} -> {none, []};
        {<<"seed ", Rest/binary>> = Text, 1} ->
            {Seed, _} = string:to_integer(Rest),
            {found, Seed, Text, verdict(Text, Asked, Translation)};
        Answer -> {answer, Answer}
    end.

-spec verdict(binary(), asked(), translation()) -> plain_verdict:verdict().
verdict(Text, Asked, Translation) -> plain_verdict:of_run(plain_verdict:asked(Asked), plain_answer:report(Text), Asked, Translation).

-spec reported(searched(), file:filename(), asked(), translation()) -> 0..255.
reported({{none, Crossed}, Number, How}, _, Asked, _) ->
    left_out("", Crossed),
    Lines = [io_lib:format("stopped after ~w seeds", [Number]) || How =:= stopped] ++ [io_lib:format("no failure in ~w seeds", [Number])],
    plain_json:put([{Line, plain_json:of_line(iolist_to_binary(Line))} || Line <- Lines], Asked),
    0;
reported({{answer, Answer}, _, _}, _, Asked, Translation) -> plain_command:reported(Answer, Asked, Translation);
reported({{found, Seed, Text, Verdict}, _, _}, File, #{words := Words} = Asked, Translation) ->
    case {Verdict, plain_words:value("--shrink", Words, none)} of
        {fails, Runs} when Runs =/= none -> plain_shrink:found(Text, File, Runs, Asked, Translation);
        _ ->
            plain_standing:left(io_lib:format(": seed ~w", [Seed]), plain_answer:report(Text), Asked),
            answered(Text, Verdict, Asked, Translation)
    end.

%% @doc A run, judged by this property.
-spec judge(asked(), translation()) -> 0..255.
judge(#{command := run, words := Words} = Asked, #{text := Text} = Translation) ->
    plain_farm:with_file(Text, fun(File) ->
        Base = plain_words:base("run", File, Asked, Translation, "returns"),
        case plain_farm:call(Base ++ plain_words:last(Words, Translation) ++ plain_words:with_choice(run, plain_words:without(["--explain"], Words))) of
            {Report, Status} when Status < 2 ->
                plain_standing:left("", plain_answer:report(Report), Asked),
                Judged = answered(Report, verdict(Report, Asked, Translation), Asked, Translation),
                strange(Report, Asked),
                plain_standing:explain(Report, Asked, Translation),
                Judged;
            Answer -> plain_command:reported(Answer, Asked, Translation)
        end
    end).

%% Says of one run what no hunt finds: a time that passes while others may go, or signals that one node doesn't show so.
-spec strange(binary(), asked()) -> ok.
strange(Report, Asked) ->
    #{events := Events} = plain_answer:report(Report),
    Said = ["a time passes while others may go" || plain_time:early(Events)]
        ++ ["signals come in an order that one node doesn't show" || maps:get(one_node, Asked, false), plain_one_node:crossed(Events)],
    [plain_command:complain(["pulsefarm-erl: here ", What, "; no hunt finds such a run\n"]) || What <- Said],
    ok.

%% An answer whose last line is the verdict.
-spec answered(binary(), plain_verdict:verdict(), asked(), translation()) -> 0..255.
answered(Text, Verdict, Asked, Translation) ->
    {Line, Status} = case Verdict of
        holds -> {<<"property holds">>, 0};
        Failing when Failing =:= fails; Failing =:= crossed -> {<<"property fails">>, 1};
        refused -> {<<"no verdict">>, 2}
    end,
    Reported = re:replace(Text, <<"^(property (holds|fails)|no verdict)$">>, Line, [multiline, {return, binary}]),
    plain_json:put(plain_answer:lines(Reported, Asked, Translation), Asked),
    Status.
