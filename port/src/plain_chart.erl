%% @doc Charts in the words of the source: the function that each process runs in its head, the place of each event in its title, and
%% terms as the source has them.
-module(plain_chart).
-export([drawn/4, escaped/1]).

-define(LONGEST_HEAD, 34).

-define(LONGEST_LABEL, 34).

%% @doc A chart of pulsefarm, written anew. The report is that of the same run. Without --verbose it has the rows of a story: services have
%% neither rows nor columns.
-spec drawn(binary(), {[plain_report:event()], plain_answer:reported()}, plain_translation:translation(), boolean()) -> iodata().
drawn(Chart, {Events, Reported}, #{names := Names} = Translation, Verbose) ->
    Lines = [iolist_to_binary(line(Line, Reported, Names)) || Line <- binary:split(Chart, <<"\n">>, [global, trim])],
    Shown = case Verbose of true -> unknown; false -> plain_answer:story(Events, Reported, Translation) end,
    [[Line, "\n"] || Line <- story(Lines, Events, Reported, Shown)].

%% The rows of a story, each with its words.
-spec story([binary()], [plain_report:event()], plain_answer:reported(), [{pos_integer(), binary()}] | unknown) -> [binary()].
story(Lines, _, _, unknown) -> Lines;
story(Lines, Events, Reported, Shown) ->
    Services = [P || P <- lists:usort([P || #{subject := {turn, P}} <- Events]), is_service(plain_answer:role(P, Reported))],
    Hidden = plain_chart_rows:hidden(Events, maps:from_list([{Number, true} || {Number, _} <- Shown]), {Services, Lines}),
    Labels = maps:from_list(Shown),
    plain_chart_rows:without([said(Line, Labels) || Line <- Lines], Hidden, Services).

-spec is_service(iodata() | unknown) -> boolean().
is_service(unknown) -> false;
is_service(Role) -> lists:prefix("the service", lists:flatten(io_lib:format("~ts", [Role]))).

%% An event in the words of the story.
-spec said(binary(), #{pos_integer() => binary()}) -> binary().
said(<<"<g class=\"event", _/binary>> = Line, Labels) ->
    case maps:get(attribute(Line, <<"data-event">>), Labels, none) of
        none -> Line;
        Said ->
            Text = quoted(escaped(cut(Said, ?LONGEST_LABEL))),
            iolist_to_binary(re:replace(Line, <<"(<text x=[^>]*>)[^<]*</text>">>, ["\\1", Text, "</text>"]))
    end;
said(Line, _) -> Line.

-spec cut(binary(), pos_integer()) -> binary().
cut(Text, Longest) ->
    case string:length(Text) > Longest of
        true -> unicode:characters_to_binary([string:slice(Text, 0, Longest - 3), "..."]);
        false -> Text
    end.

-spec line(binary(), plain_answer:reported(), map()) -> iodata().
line(<<"<g class=\"process", _/binary>> = Line, Reported, _) ->
    Pid = attribute(Line, <<"data-pid">>),
    case plain_answer:role(Pid, Reported) of
        unknown -> Line;
        Role ->
            Text = escaped(iolist_to_binary(Role)),
            Titled = re:replace(Line, <<"<title>([^<]*)</title>">>, ["<title>\\1, ", quoted(Text), "</title>"]),
            re:replace(Titled, <<"(<text class=\"of\"[^>]*>)[^<]*</text>">>, ["\\1", quoted(escaped(cut(iolist_to_binary(Role), ?LONGEST_HEAD))), "</text>"], [global])
    end;
line(<<"<g class=\"event", _/binary>> = Line, Reported, Names) ->
    Turned = texts(Line, Names),
    case plain_answer:event_place(attribute(Line, <<"data-event">>), Reported) of
        none -> Turned;
        Place ->
            Text = quoted(escaped(iolist_to_binary(plain_words_back:place(Place)))),
            re:replace(Turned, <<"<title>([^<]*)</title>">>, ["<title>\\1, ", Text, "</title>"])
    end;
line(Line, _, Names) -> texts(Line, Names).

-spec attribute(binary(), binary()) -> non_neg_integer() | none.
attribute(Line, Name) ->
    case re:run(Line, [Name, "=\"([0-9]+)\""], [{capture, [1], binary}]) of
        {match, [Number]} -> binary_to_integer(Number);
        nomatch -> none
    end.

%% The texts between the tags of a line, turned back.
-spec texts(binary(), map()) -> iodata().
texts(Line, Names) ->
    Parts = re:split(Line, <<"(<[^>]*>)">>),
    [case Part of <<"<", _/binary>> -> Part; _ -> escaped(plain_words_back:line(unescaped(Part), Names)) end || Part <- Parts].

-spec unescaped(binary()) -> binary().
unescaped(Text) ->
    lists:foldl(fun({From, To}, Before) -> binary:replace(Before, From, To, [global]) end, Text,
                [{<<"&lt;">>, <<"<">>}, {<<"&gt;">>, <<">">>}, {<<"&quot;">>, <<"\"">>}, {<<"&#39;">>, <<"'">>}, {<<"&amp;">>, <<"&">>}]).

%% @doc A text as markup has it.
-spec escaped(binary()) -> binary().
escaped(Text) ->
    lists:foldl(fun({From, To}, Before) -> binary:replace(Before, From, To, [global]) end, Text,
                [{<<"&">>, <<"&amp;">>}, {<<"<">>, <<"&lt;">>}, {<<">">>, <<"&gt;">>}, {<<"\"">>, <<"&quot;">>}]).

%% A text in the place of a match as it is.
-spec quoted(binary()) -> iodata().
quoted(Text) -> re:replace(Text, <<"[\\\\&]">>, <<"\\\\&">>, [global]).

