%% @doc Parallel commands of a state machine, as PropEr and QuickCheck have them: `initial_state', `command',
%% `precondition', `next_state' and `postcondition' in the first file. Each test has commands before and two lists of
%% commands beside each other. All outcomes of its runs are hunted; each has to be that of some order of the commands. A
%% test that fails is made smaller, and its run is reported.
-module(plain_prop).
-export([run/1]).

-define(TESTS, "100").
-define(SEEDS, "0..200").
-define(SHRINK, "60").
-type asked() :: plain_words:asked().
-type commands() :: plain_commands:commands().
-type failing() :: {commands(), non_neg_integer(), iodata(), binary()}.
-type judged() :: holds | {fails, failing()} | {refused, iodata()}.
-type translated() :: {ok, [{plain_translation:translation(), [{commands(), atom()}]}]} | {refused,
        [plain_translation:refusal()]}.

%% @doc Tests the state machine of the first file; its status.
-spec run(asked()) -> 0..255.
run(#{files := [Model | Systems], options := Options, words := Words} = Asked) ->
    case {plain_commands:load(Model, Options), string:to_integer(plain_words:value("--tests", Words, ?TESTS))} of
        {{refused, Sentence}, _} -> plain_hunt:complained(Sentence);
        {_, {Number, Rest}} when not is_integer(Number); Number < 1; Rest =/= "" ->
                plain_hunt:complained("--tests wants a number from 1 on");
        {{ok, Module}, {Number, ""}} ->
            ok = plain_commands:load_all(Systems, Options),
            plain_eunit:with_room(fun(Room) -> tests(Module, Number, Systems, Room, Asked) end)
    end.

-spec tests(module(), pos_integer(), [file:filename()], file:filename(), asked()) -> 0..255.
tests(Module, Number, Systems, Room, #{files := [Model | _], words := Words} = Asked) ->
    {Seed, _} = string:to_integer(plain_words:value("--seed", Words, "0")),
    case plain_commands:generated(Module, Number, Seed) of
        {refused, Sentence} -> plain_hunt:complained(Sentence);
        {ok, Tests} ->
            Files = [Model || plain_commands:calls(Module, Tests)] ++ Systems,
            Place = {Module, Files, Room, Asked},
            case translated(Tests, Place) of
                {refused, Refusals} ->
                    plain_command:refusals(Refusals),
                    2;
                {ok, Groups} -> reported(first(Groups, Place), Number, Place)
            end
    end.

%% All tests in one translation where they fit, else in halves.
-spec translated([commands()], tuple()) -> translated().
translated(Tests, {Module, Files, Room, #{options := Options}} = Place) ->
    Bodies = [#{body => plain_commands:body(Test, Module)} || Test <- Tests],
    {File, Roots} = plain_eunit:with_roots(Bodies, Room),
    case {plain_translation:translate([File | Files], Options#{root := {all, Roots}}), Tests} of
        {{ok, Translation}, _} -> {ok, [{Translation, lists:zip(Tests, Roots)}]};
        {{refused, Refusals}, [_, _ | _]} ->
            case plain_size:is_too_large(Refusals) of
                true -> halves(lists:split(length(Tests) div 2, Tests), Place);
                false -> {refused, Refusals}
            end;
        {Refused, [_]} -> Refused
    end.

-spec halves({[commands()], [commands()]}, tuple()) -> translated().
halves({First, Second}, Place) ->
    case {translated(First, Place), translated(Second, Place)} of
        {{ok, A}, {ok, B}} -> {ok, A ++ B};
        {{refused, _} = Refused, _} -> Refused;
        {_, Refused} -> Refused
    end.

%% The first test that fails, or is refused.
-spec first([{plain_translation:translation(), [{commands(), atom()}]}], tuple()) -> judged().
first(Groups, Place) -> first_of([{Translation, Test, Root} || {Translation, Roots} <- Groups, {Test, Root} <- Roots],
        Place).

-spec first_of([{plain_translation:translation(), commands(), atom()}], tuple()) -> judged().
first_of([{Translation, Test, Root} | Rest], Place) ->
    case judged(Test, Root, Translation, Place) of
        holds -> first_of(Rest, Place);
        Other -> Other
    end;
first_of([], _) -> holds.

%% All outcomes of a test, each held against the orders of its commands.
-spec judged(commands(), atom(), plain_translation:translation(), tuple()) -> judged().
judged(Test, Root, #{text := Text} = Translation, {Module, _, _, #{words := Words} = Asked}) ->
    Given = plain_words:without(["--seeds", "--tests", "--seed", "--shrink"], Words),
    Seeds = plain_words:value("--seeds", Words, ?SEEDS),
    One = Translation#{roots := [Root]},
    Answer = plain_farm:with_file(Text, fun(File) ->
        plain_farm:call(plain_words:base("hunt", File, Asked, One, "returns") ++ plain_words:last(Words, One) ++ ["--all", "--seeds", Seeds | Given])
    end),
    case Answer of
        missing -> {refused, "the program pulsefarm is not on the path"};
        {Said, Status} when Status >= 2 -> {refused, string:trim(Said)};
        {Lines, _} -> outcomes([outcome(Line) || Line <- binary:split(Lines, <<"\n">>, [global, trim]),
                binary:match(Line, <<" seeds, least ">>) =/= nomatch], Test, Module)
    end.

-spec outcome(binary()) -> {non_neg_integer(), binary()}.
outcome(Line) ->
    {match, [Least, Outcome]} = re:run(Line, <<"^[a-z]+ [0-9]+ seeds, least ([0-9]+): (.*)$">>, [{capture,
            all_but_first, binary}, dotall]),
    {binary_to_integer(Least), Outcome}.

-spec outcomes([{non_neg_integer(), binary()}], commands(), module()) -> judged().
outcomes([{Least, Outcome} | Rest], Test, Module) ->
    case plain_commands:explained(Outcome, Test, Module) of
        true -> outcomes(Rest, Test, Module);
        {refused, Sentence} -> {refused, Sentence};
        {false, Why} -> {fails, {Test, Least, Why, Outcome}}
    end;
outcomes([], _, _) -> holds.

-spec reported(judged(), pos_integer(), tuple()) -> 0..2.
reported(holds, Number, {_, _, _, #{words := Words}}) ->
    plain_out:put(io_lib:format("no failure in ~w tests of ~ts seeds~n", [Number, plain_words:value("--seeds", Words,
            ?SEEDS)])),
    0;
reported({refused, Sentence}, _, _) -> plain_hunt:complained(Sentence);
reported({fails, First}, _, Place) ->
    {Test, Seed, Why, Outcome} = Least = smaller(First, Place),
    plain_out:put([plain_commands:shown(Test), io_lib:format("seed ~w: ~ts~n", [Seed, Outcome]), Why, "\n\n"]),
    run_of(Least, Place).

%% The smallest test that is found to fail by leaving out one command after the other.
-spec smaller(failing(), tuple()) -> failing().
smaller({Test, _, _, _} = Known, {Module, _, _, _} = Place) ->
    Candidates = plain_commands:smaller(Test, Module),
    case Candidates =/= [] andalso translated(Candidates, Place) of
        {ok, Groups} ->
            case first(Groups, Place) of
                {fails, Next} -> smaller(Next, Place);
                _ -> Known
            end;
        _ -> Known
    end.

%% The run of such a test, which is made to fail at its end where its outcome is no crash.
-spec run_of(failing(), tuple()) -> 0..255.
run_of({Test, Seed, _, Outcome}, {Module, Files, Room, #{words := Words, options := Options} = Asked}) ->
    {File, [Root]} = plain_eunit:with_roots([#{body => plain_commands:failing_body(Test, Outcome, Module)}], Room),
    All = [File | Files],
    Own = Options#{root := Root},
    {ok, Translation} = plain_translation:translate(All, Own),
    Kept = plain_words:without(["--seeds", "--tests", "--seed"], Words),
    Shrink = case plain_words:value("--shrink", Kept, none) of none -> ["--shrink", ?SHRINK]; _ -> [] end,
    Seeds = lists:flatten(io_lib:format("~w..~w", [Seed, Seed + 1])),
    plain_hunt:hunt(Asked#{command := hunt, files := All, options := Own, words := ["--seeds", Seeds] ++ Shrink ++
            Kept}, Translation).
