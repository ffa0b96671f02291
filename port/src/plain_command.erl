%% @doc The commands: translate, then call pulsefarm and report its answer.
-module(plain_command).
-export([run/1, complain/1, reported/3, refusals/1]).

-spec complain(iodata()) -> ok.
complain(Text) -> io:put_chars(standard_error, unicode:characters_to_list(Text)).

-spec run(plain_words:asked()) -> 0..255.
run(#{command := eunit} = Asked) -> plain_eunit:run(Asked);
run(#{command := prop} = Asked) -> plain_prop:run(Asked);
run(#{files := Files, options := Options, words := Words} = Asked) ->
    case {lists:member("--all-roots", Words), maps:take(mixed, Asked)} of
        {true, _} -> plain_roots:hunt(Asked);
        {false, error} -> one_root(Files, Options, Asked);
        {false, {true, One}} -> plain_hunt:mixed(One, fun(#{options := Own} = Half) -> one_root(Files, Own, Half) end)
    end.

-spec one_root([file:filename()], plain_translation:options(), plain_words:asked()) -> 0..255.
one_root(Files, Options, Asked) ->
    case plain_translation:translate(Files, Options) of
        {refused, Refusals} ->
            refusals(Refusals),
            2;
        {ok, #{notes := Notes} = Translation} ->
            [complain(["note: ", Note, "\n"]) || Note <- Notes],
            translated(Asked, Translation)
    end.

%% @doc Says why something can't be translated.
-spec refusals([plain_translation:refusal()]) -> ok.
refusals(Refusals) -> lists:foreach(fun({File, Line, Sentence}) -> complain(io_lib:format("~ts: ~ts~n", [plain_refusal:place(File, Line), Sentence])) end, Refusals).

-spec translated(plain_words:asked(), plain_translation:translation()) -> 0..255.
translated(#{command := translate, out := none}, #{text := Text}) ->
    plain_out:put(Text),
    0;
translated(#{command := translate, out := Out}, #{text := Text, map := Map}) ->
    case {file:write_file(Out, Text), file:write_file(Out ++ ".map", unicode:characters_to_binary(plain_map:text(Map)))} of
        {ok, ok} -> 0;
        {{error, Reason}, _} -> failed(Out, Reason);
        {ok, {error, Reason}} -> failed(Out ++ ".map", Reason)
    end;
translated(#{files := [File | _], command := Command}, #{roots := [_, _ | _] = Roots}) when Command =/= check ->
    complain(["pulsefarm-erl: ", File, " exports ", lists:join(", ", [atom_to_list(Root) || Root <- Roots]), "; name the one to begin with by --root\n"]),
    2;
translated(#{command := check} = Asked, Translation) ->
    Status = of_farm(Asked, Translation),
    Status =:= 0 andalso complain(["pulsefarm-erl: ", plain_size:fits(Translation, plain_translation:most_bytes()), "\n"]),
    Status;
translated(#{command := shrink} = Asked, Translation) -> plain_shrink:shrink(Asked, Translation);
translated(#{command := explore} = Asked, Translation) -> plain_explore:explore(Asked, Translation);
translated(#{command := Command} = Asked, Translation) ->
    case {Command, plain_verdict:own(plain_verdict:asked(Asked))} of
        {hunt, true} -> plain_hunt:hunt(Asked, Translation);
        {run, true} -> plain_hunt:judge(Asked, Translation);
        {hunt, false} -> shrunk(plain_words:value("--shrink", maps:get(words, Asked), none), Asked, Translation);
        _ -> of_farm(Asked, Translation)
    end.

%% A hunt by a property of the farm. What is to be shrunk is shrunk here, where the failure is kept and not only the property.
-spec shrunk(string() | none, plain_words:asked(), plain_translation:translation()) -> 0..255.
shrunk(none, Asked, Translation) -> of_farm(Asked, Translation);
shrunk(Runs, #{words := Words} = Asked, #{text := Text} = Translation) ->
    Whole = Asked#{words := plain_words:without(["--shrink"], Words)},
    plain_farm:with_file(Text, fun(File) ->
        case plain_farm:call(plain_words:of_farm(File, Whole, Translation)) of
            {<<"seed ", _/binary>> = Found, 1} = Answer ->
                case plain_verdict:gaps(maps:get(events, plain_answer:report(Found))) of
                    [] -> plain_shrink:found(Found, File, Runs, Asked, Translation);
                    _ -> reported(Answer, Whole, Translation)
                end;
            Answer -> reported(Answer, Whole, Translation)
        end
    end).

%% What the farm answers, in the words of the source.
-spec of_farm(plain_words:asked(), plain_translation:translation()) -> 0..255.
of_farm(Asked, #{text := Text} = Translation) ->
    reported(plain_farm:with_file(Text, fun(File) -> plain_farm:call(plain_words:of_farm(File, Asked, Translation)) end), Asked, Translation).

-spec failed(file:filename(), file:posix()) -> 2.
failed(File, Reason) ->
    complain(["pulsefarm-erl: ", File, ": ", file:format_error(Reason), "\n"]),
    2.

%% The same run as that of a chart: its events, with their places.
-spec run_of_chart(plain_words:asked(), plain_translation:translation()) -> {[plain_report:event()], plain_answer:reported()}.
run_of_chart(#{words := Given} = Asked, #{text := Text} = Translation) ->
    Own = plain_words:without(["--compact", "--page"], Given),
    Words = fun(File) -> plain_words:of_farm(File, Asked#{command := run, words := Own}, Translation) end,
    case plain_farm:with_file(Text, fun(File) -> plain_farm:call(Words(File)) end) of
        {Answer, Status} when Status < 2 ->
            #{events := Events} = plain_report:read(binary:split(Answer, <<"\n">>, [global, trim])),
            {Events, plain_answer:replayed(Asked, Translation, Events)};
        _ -> {[], unknown}
    end.

%% @doc Reports what pulsefarm answered; its status.
-spec reported({binary(), 0..255} | missing, plain_words:asked(), plain_translation:translation()) -> 0..255.
reported(missing, _, _) ->
    complain("pulsefarm-erl: the program pulsefarm is not on the path; sh install.sh puts it there, or PULSEFARM names it\n"),
    2;
reported({Text, Status}, #{command := Command} = Asked, _) when Command =:= check; Status >= 2 ->
    plain_json:put([{Line, plain_json:of_line(Line)} || Line <- binary:split(Text, <<"\n">>, [global, trim])], Asked),
    Status;
reported({Text, Status}, #{command := chart} = Asked, Translation) ->
    plain_out:put(plain_chart:drawn(Text, run_of_chart(Asked, Translation), Translation, maps:get(verbose, Asked, false))),
    Status;
reported({Text, Status}, Asked, Translation) ->
    #{events := Events} = plain_answer:report(Text),
    {Reported, Judged} = case {plain_verdict:gaps(Events), re:run(Text, <<"^(holds|fails)( .*: ended \\{refused,.*)$">>, [multiline])} of
        {[_ | _], _} -> {re:replace(Text, <<"^property (holds|fails)$">>, <<"no verdict">>, [multiline, {return, binary}]), 2};
        {[], {match, _}} -> {re:replace(Text, <<"^(holds|fails)( .*: ended \\{refused,.*)$">>, <<"refused\\2">>, [multiline, global, {return, binary}]), 2};
        {[], nomatch} -> {Text, Status}
    end,
    plain_json:put(plain_answer:lines(Reported, Asked, Translation), Asked),
    plain_standing:explain(Reported, Asked, Translation),
    Judged.
