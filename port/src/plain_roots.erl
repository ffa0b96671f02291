%% @doc A hunt over each exported function without arguments of the first file, by their names, as pulsefarm has it with `--all-roots': a
%% line for each root as soon as it is known, and one for all. Of a folder the roots of each file are hunted, with the others beside it.
-module(plain_roots).
-export([hunt/1]).

-type asked() :: plain_words:asked().
%% A root of a file with the translation that has it, or why there is none.
-type root() :: {string(), atom(), {ok, asked(), plain_translation:translation()} | {refused, [plain_translation:refusal()]}}.
-type result() :: holds | fails | refused.

%% @doc Hunts all roots; the status.
-spec hunt(asked()) -> 0..255.
hunt(#{words := Words} = Asked) ->
    case {plain_hunt:within(Asked), gathered(firsts(Asked), Asked, [])} of
        {{no, Sentence}, _} -> plain_hunt:complained(Sentence);
        {_, {refused, Refusals}} ->
            plain_command:refusals(Refusals),
            2;
        {_, {ok, []}} -> plain_hunt:complained("the folder has no file with a root; a root is main, race, or ends with _race or _test");
        {Within, {ok, Roots}} -> summed(each(Roots, Within, lists:member("--fail-fast", Words), Asked), Asked)
    end.

%% The files whose roots are hunted.
-spec firsts(asked()) -> [file:filename()].
firsts(#{folder := Roots, files := Files}) when Roots =/= none -> Files;
firsts(#{files := [File | _]}) -> [File].

%% The roots of these files, each with the others beside it.
-spec gathered([file:filename()], asked(), [root()]) -> {ok, [root()]} | {refused, [plain_translation:refusal()]}.
gathered([], _, Before) -> {ok, Before};
gathered([File | Later], #{files := Files} = Asked, Before) ->
    case roots(File, Asked#{files := [File | Files -- [File]]}) of
        {ok, Roots} -> gathered(Later, Asked, Before ++ Roots);
        Refused -> Refused
    end.

%% The roots in one translation where all fit, else each in its own.
-spec roots(file:filename(), asked()) -> {ok, [root()]} | {refused, [plain_translation:refusal()]}.
roots(File, #{files := Files, options := Options} = Asked) ->
    Folder = maps:get(folder, Asked, none),
    case plain_translation:roots(Files, Options) of
        {ok, Names} -> {ok, [{filename:basename(File), Name, Root} || {Name, Root} <- translations([Name || Name <- Names, is_root(Name, Folder)], Asked)]};
        {refused, [{_, _, "the first module exports no function" ++ _}]} when Folder =/= none -> {ok, []};
        Refused -> Refused
    end.

%% Whether a function without arguments is a root: each of a file, and of a folder those that are named for it.
-spec is_root(atom(), named | all | none) -> boolean().
is_root(Name, named) -> re:run(atom_to_list(Name), "^(main|race|.*_race|.*_test)$", [{capture, none}]) =:= match;
is_root(_, _) -> true.

-spec translations([atom()], asked()) -> [{atom(), {ok, asked(), plain_translation:translation()} | {refused, [plain_translation:refusal()]}}].
translations([], _) -> [];
translations(Names, #{files := Files, options := Options} = Asked) ->
    All = Asked#{options := Options#{root := {all, Names}}},
    case translated(Files, All) of
        {ok, _, #{notes := Notes} = Translation} ->
            noted(Notes),
            [{Name, {ok, All, Translation#{roots := [Name]}}} || Name <- Names];
        {refused, _} -> [{Name, alone(Name, Asked)} || Name <- Names]
    end.

-spec alone(atom(), asked()) -> {ok, asked(), plain_translation:translation()} | {refused, [plain_translation:refusal()]}.
alone(Name, #{files := Files, options := Options} = Asked) ->
    case translated(Files, Asked#{options := Options#{root := Name}}) of
        {ok, _, #{notes := Notes}} = Translated ->
            noted(Notes),
            Translated;
        Refused -> Refused
    end.

-spec translated([file:filename()], asked()) -> {ok, asked(), plain_translation:translation()} | {refused, [plain_translation:refusal()]}.
translated(Files, #{options := Options} = Asked) ->
    case plain_translation:translate(Files, Options) of
        {ok, Translation} -> {ok, Asked, Translation};
        Refused -> Refused
    end.

-spec noted([string()]) -> ok.
noted(Notes) -> lists:foreach(fun(Note) -> plain_command:complain(["note: ", Note, "\n"]) end, Notes).

%% One root after the other, until one fails where that ends it. Each has its part of the time that is left.
-spec each([root()], plain_hunt:within(), boolean(), asked()) -> [result()].
each([], _, _, _) -> [];
each([{File, Name, Translated} | Rest] = Roots, Within, Fast, Asked) ->
    {Result, Line} = one(Name, Translated, part(Within, length(Roots)), File),
    plain_json:put([Line], Asked),
    case Fast andalso Result =:= fails of
        true -> [Result];
        false -> [Result | each(Rest, Within, Fast, Asked)]
    end.

-spec part(plain_hunt:within(), pos_integer()) -> plain_hunt:within().
part({From, To, never}, _) -> {From, To, never};
part({From, To, End}, Number) ->
    Now = erlang:monotonic_time(millisecond),
    {From, To, Now + max(0, End - Now) div Number}.

-spec one(atom(), {ok, asked(), plain_translation:translation()} | {refused, [plain_translation:refusal()]}, tuple(), string()) -> {result(), plain_json:line()}.
one(Name, {refused, Refusals}, _, File) ->
    plain_command:refusals(Refusals),
    {_, _, Sentence} = hd(Refusals),
    {refused, line(Name, File, [": refused: ", Sentence], [{refused, Sentence}])};
one(Name, {ok, Asked, #{text := Text} = Translation}, Within, File) ->
    {Found, Number, How} = plain_farm:with_file(Text, fun(Program) -> plain_hunt:search(Within, Program, Asked, Translation) end),
    [plain_hunt:left_out(io_lib:format("~p: ", [Name]), Early) || {none, Early} <- [Found]],
    case {Found, How} of
        {{none, _}, stopped} -> {holds, line(Name, File, io_lib:format(": stopped after ~w seeds, no failure", [Number]), [{stopped, true}, {failure, false}, {seeds, Number}])};
        {{none, _}, whole} -> {holds, line(Name, File, io_lib:format(": no failure in ~w seeds", [Number]), [{failure, false}, {seeds, Number}])};
        {{found, Seed, Report, Verdict}, _} -> failing(Name, File, Seed, Verdict, plain_answer:why(plain_answer:lines(Report, Asked, Translation)));
        {{answer, missing}, _} -> {refused, line(Name, File, ": refused: the program pulsefarm is not on the path", [{refused, "the program pulsefarm is not on the path"}])};
        {{answer, {Said, _}}, _} -> {refused, line(Name, File, [": refused: ", string:trim(Said)], [{refused, string:trim(Said)}])}
    end.

-spec failing(atom(), string(), non_neg_integer(), plain_verdict:verdict(), plain_json:line()) -> {result(), plain_json:line()}.
failing(Name, File, Seed, refused, {Text, Why}) -> {refused, line(Name, File, [io_lib:format(": seed ~w: ", [Seed]), Text], [{seed, Seed}, {why, {object, Why}}])};
failing(Name, File, Seed, _, {Text, Why}) ->
    {fails, line(Name, File, [io_lib:format(": seed ~w fails: ", [Seed]), Text], [{failure, true}, {seed, Seed}, {why, {object, Why}}])}.

-spec line(atom(), string(), iodata(), plain_json:object()) -> plain_json:line().
line(Name, File, Text, Object) ->
    Root = io_lib:format("~p", [Name]),
    {[File, " ", Root, Text], [{file, File}, {root, Root} | Object]}.

%% The line at the end, and the status.
-spec summed([result()], asked()) -> 0..2.
summed(Results, Asked) ->
    Files = firsts(Asked),
    Count = fun(Kind) -> length([x || Result <- Results, Result =:= Kind]) end,
    {Fails, Refused} = {Count(fails), Count(refused)},
    Text = io_lib:format("~w ~s, ~w ~s: ~w ~s, ~w refused", [length(Files), several(Files, "file"), length(Results), several(Results, "root"), Fails,
                                                            case Fails of 1 -> "fails"; _ -> "fail" end, Refused]),
    plain_json:put([{Text, [{files, length(Files)}, {roots, length(Results)}, {fail, Fails}, {refused, Refused}]}], Asked),
    case {Refused, Fails} of
        {0, 0} -> 0;
        {0, _} -> 1;
        _ -> 2
    end.

-spec several([term()], string()) -> string().
several([_], Word) -> Word;
several(_, Word) -> Word ++ "s".
