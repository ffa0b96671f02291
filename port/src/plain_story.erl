%% @doc A run as a story: what the processes of the source do, each with the line of the source where it has one and the text of that line. The
%% services of the translation, waits and deliveries are left out, and calls of servers and tables are shown as such.
-module(plain_story).
-export([lines/3]).

%% Where an event is in the source, or the first of several places where it may be.
-type place() :: plain_translation:place() | {several, plain_translation:place()} | none.

%% @doc The lines of a story, each with the number of its event.
-spec lines([plain_report:event()], [plain_translation:place() | none], {plain_answer:reported(), #{atom() => plain_translation:place()}}) -> [plain_json:line()].
lines(Reports, Places, {Reported, Names}) ->
    Events = [with_tag(Event) || Event <- Reports],
    Pids = lists:usort([P || #{subject := {turn, P}} <- Events]),
    Services = [P || P <- Pids, is_service(plain_answer:role(P, Reported))],
    {Lines, _} = lists:mapfoldl(fun({Number, Event, Place}, Asking) ->
        case Event of
            #{subject := {turn, P}, label := <<"receive ", _/binary>>} when is_map_key(P, Asking) -> {[], maps:remove(P, Asking)};
            _ -> {line(Number, Event, taken(Event, Place, Reported), Services, Names), asking(Event, Services, Asking)}
        end
    end, #{}, without_looks([Shown || {Report, {_, _, Place} = Shown} <- lists:zip(Reports, lists:zip3(lists:seq(1, length(Events)), Events, Places)),
                                     not is_dropped(Report, Place)], #{})),
    lists:append(Lines).

%% The tag of a call that may time out is its reference.
-spec with_tag(plain_report:event()) -> plain_report:event().
with_tag(#{label := Label} = Event) ->
    Event#{label := re:replace(Label, <<"{port@late,(#Ref<[0-9]+>)}">>, <<"\\1">>, [global, {return, binary}])}.

%% Whether an answer came too late: it is received for a call of the source, or is dropped.
-spec is_dropped(plain_report:event(), plain_translation:place() | none) -> boolean().
is_dropped(_, {called, _, _, _}) -> false;
is_dropped(#{label := <<"receive {{port@late,", _/binary>>}, _) -> true;
is_dropped(_, _) -> false.

%% Who is asked for its mailbox takes all out and sends it to itself again. It begins by a reference to itself, whose
%% second receipt is the end.
-spec without_looks([Shown], #{non_neg_integer() => {binary(), 1 | 2}}) -> [Shown].
without_looks([{_, #{subject := {turn, P}, label := Label}, Place} = Shown | Rest], Looks) ->
    Own = ["^send <", integer_to_list(P), "> (#Ref<[0-9]+>)$"],
    case {Looks, re:run(Label, Own, [{capture, [1], binary}])} of
        {#{P := {R, 1}}, _} when Label =:= <<"receive ", R/binary>> -> without_looks(Rest, Looks#{P := {R, 2}});
        {#{P := {R, 2}}, _} when Label =:= <<"receive ", R/binary>> -> without_looks(Rest, maps:remove(P, Looks));
        {#{P := _}, _} -> without_looks(Rest, Looks);
        {_, {match, [R]}} when not (is_tuple(Place) andalso element(1, Place) =:= user) -> without_looks(Rest, Looks#{P => {R, 1}});
        _ ->
            case re:run(Label, "^(send <[0-9]+>|receive) {port@(look|seen),") of
                nomatch -> [Shown | without_looks(Rest, Looks)];
                _ -> without_looks(Rest, Looks)
            end
    end;
without_looks([Shown | Rest], Looks) -> [Shown | without_looks(Rest, Looks)];
without_looks([], _) -> [].

%% Where a server takes a message: at the clause of its callback. Where the message fits several, its line isn't shown.
-spec taken(plain_report:event(), plain_translation:place() | none, plain_answer:reported()) -> place().
taken(_, {Kind, _, _, _} = Place, _) when Kind =:= user; Kind =:= called -> Place;
taken(#{subject := {turn, P}, label := <<"receive ", Message/binary>>}, Place, {ok, _, Traced} = Reported) ->
    case plain_callback:place(plain_answer:role(P, Reported), Message, Traced) of
        {only, Clause} -> Clause;
        {first, Clause} -> {several, Clause};
        none -> Place
    end;
taken(_, Place, _) -> Place.

%% Who waits for the answer of a service, which is the next that it receives.
-spec asking(plain_report:event(), [non_neg_integer()], #{non_neg_integer() => true}) -> #{non_neg_integer() => true}.
asking(#{subject := {turn, P}, label := <<"send ", Rest/binary>> = Label}, Services, Asking) ->
    [To | _] = binary:split(Rest, <<" ">>),
    case lists:member(pid(To), Services) andalso re:run(Label, [${, "[a-z_,]*(<", integer_to_list(P), ">,#Ref|.*,<", integer_to_list(P), ">,#Ref<[0-9]+>})"]) =/= nomatch
        andalso re:run(Label, <<"{(arm|send),">>) =:= nomatch of
        true -> Asking#{P => true};
        false -> Asking
    end;
asking(_, _, Asking) -> Asking.

-spec is_service(iodata() | unknown) -> boolean().
is_service(unknown) -> false;
is_service(Role) -> lists:prefix("the service", lists:flatten(io_lib:format("~ts", [Role]))).

-spec line(pos_integer(), plain_report:event(), place(), [non_neg_integer()], map()) -> [plain_json:line()].
line(Number, #{subject := {turn, P}, label := Label} = Event, Place, Services, Names) ->
    case lists:member(P, Services) orelse not is_shown(Label, the_place(Place), Services) of
        true -> [];
        false ->
            Said = plain_words_back:line(said(Label), Names),
            [{io_lib:format("~w <~w> ~ts~ts", [Number, P, Said, placed(Place)]), object(Number, P, Said, Event) ++ place(Place)}]
    end;
line(Number, #{subject := {delivery, A, B}, label := <<"deliver exit ends ", Reason/binary>>} = Event, _, _, Names) ->
    Said = io_lib:format("is ended by <~w>: ~ts", [A, plain_words_back:line(Reason, Names)]),
    [{io_lib:format("~w <~w> ~ts", [Number, B, Said]), object(Number, B, Said, Event)}];
line(_, _, _, _, _) -> [].

-spec the_place(place()) -> plain_translation:place() | none.
the_place({several, Place}) -> Place;
the_place(Place) -> Place.

%% What an object has of an event: its number in the run, its choice, who goes, and what it does.
-spec object(pos_integer(), non_neg_integer(), unicode:chardata(), plain_report:event()) -> plain_json:object().
object(Number, P, Said, #{choice := Choice, among := Among}) ->
    [{event, Number}, {choice, Choice}, {count, Among}, {actor, io_lib:format("<~w>", [P])}, {label, Said}].

-spec place(place()) -> plain_json:object().
place({several, Place}) -> plain_json:place(Place);
place({Kind, File, Line, _} = Place) when Kind =:= user; Kind =:= called -> plain_json:place(Place) ++ [{source, Text} || Text <- [source(File, Line)], Text =/= none];
place(_) -> [].

%% Whether an event is one of the story: what the source does itself, and of the library what goes between processes of the source.
-spec is_shown(binary(), plain_translation:place() | none, [non_neg_integer()]) -> boolean().
is_shown(Label, Place, Services) ->
    case {binary:split(Label, <<" ">>, [global]), Place} of
        {[<<"wait">> | _], _} -> false;
        {[<<"cut">> | _], _} -> false;
        {[Word | _], _} when Word =:= <<"make_ref">>; Word =:= <<"demonitor">>; Word =:= <<"whereis">> -> false;
        {[<<"end">>, <<"normal">> | _], _} -> false;
        {[<<"end">> | _], _} -> true;
        {[<<"raise">> | _], _} -> true;
        {[<<"send">>, _, <<"{'after',", _/binary>>], _} -> false;
        {[<<"send">>, To | _], _} -> not lists:member(pid(To), Services) orelse re:run(Label, asked()) =/= nomatch;
        {[<<"receive">> | _], {user, _, _, _}} -> re:run(Label, <<"^receive {'after',">>) =:= nomatch;
        {[<<"receive">> | _], _} -> re:run(Label, <<"^receive ({#Ref<[0-9]+>,(ok,|error})|{'after',|{'DOWN',|{ack,)">>) =:= nomatch;
        {_, {user, _, _, _}} -> true;
        {[Word, Pid | _], {called, _, _, _}} when Word =:= <<"spawn">>; Word =:= <<"spawn_link">>; Word =:= <<"spawn_monitor">> ->
            not lists:member(pid(Pid), Services);
        {_, _} -> false
    end.

-spec pid(binary()) -> integer().
pid(Pid) ->
    case re:run(Pid, <<"^<([0-9]+)>$">>, [{capture, [1], binary}]) of
        {match, [Number]} -> binary_to_integer(Number);
        nomatch -> -1
    end.

%% A question to a service that keeps tables.
-spec asked() -> binary().
asked() -> <<"^send <[0-9]+> {(ask|dets),<[0-9]+>,#Ref<[0-9]+>,{([a-z_]+),(.*)}}$">>.

%% A label in the words of who wrote the source.
-spec said(binary()) -> binary().
said(Label) ->
    lists:foldl(fun({From, To}, Before) -> re:replace(Before, From, To, [{return, binary}]) end, Label, asks() ++ servers() ++ actions()).

-spec asks() -> [{binary(), binary()}].
asks() -> [{asked(), <<"\\1:\\2(\\3)">>}, {<<"^ask:">>, <<"ets:">>}].

%% What goes between servers, their clients and who starts them.
-spec servers() -> [{binary(), binary()}].
servers() ->
    [{<<"^send (<[0-9]+>) {'\\$gen_call',{<[0-9]+>,#Ref<[0-9]+>},(.*)}$">>, <<"calls \\1: \\2">>},
     {<<"^send (<[0-9]+>) {'\\$gen_cast',(.*)}$">>, <<"casts to \\1: \\2">>},
     {<<"^send (<[0-9]+>) {system,{<[0-9]+>,#Ref<[0-9]+>},{terminate,(.*)}}$">>, <<"stops \\1: \\2">>},
     {<<"^send (<[0-9]+>) {system,{<[0-9]+>,#Ref<[0-9]+>},(.*)}$">>, <<"asks \\1 by sys: \\2">>},
     {<<"^send (<[0-9]+>) {#Ref<[0-9]+>,(.*)}$">>, <<"replies to \\1: \\2">>},
     {<<"^send (<[0-9]+>) {ack,<[0-9]+>,(.*)}$">>, <<"answers \\1, which starts it: \\2">>},
     {<<"^receive {'\\$gen_call',{(<[0-9]+>),#Ref<[0-9]+>},(.*)}$">>, <<"takes the call of \\1: \\2">>},
     {<<"^receive {'\\$gen_cast',(.*)}$">>, <<"takes the cast: \\1">>},
     {<<"^receive {system,{(<[0-9]+>),#Ref<[0-9]+>},{terminate,(.*)}}$">>, <<"is stopped by \\1: \\2">>},
     {<<"^receive {system,{(<[0-9]+>),#Ref<[0-9]+>},(.*)}$">>, <<"is asked by sys of \\1: \\2">>},
     {<<"^receive {#Ref<[0-9]+>,(.*)}$">>, <<"gets the reply: \\1">>}].

%% The actions of a process.
-spec actions() -> [{binary(), binary()}].
actions() ->
    [{<<"^send (<[0-9]+>) (.*)$">>, <<"sends \\1: \\2">>},
     {<<"^exit (<[0-9]+>) (.*)$">>, <<"sends \\1 an exit signal: \\2">>},
     {<<"^receive (.*)$">>, <<"receives \\1">>},
     {<<"^spawn (<[0-9]+>)$">>, <<"spawns \\1">>},
     {<<"^spawn_link (<[0-9]+>)$">>, <<"spawns \\1, linked">>},
     {<<"^spawn_monitor (<[0-9]+>) (#Ref<[0-9]+>)$">>, <<"spawns \\1, monitored by \\2">>},
     {<<"^monitor (#Ref<[0-9]+>) (<[0-9]+>)$">>, <<"monitors \\2 by \\1">>},
     {<<"^link (<[0-9]+>)$">>, <<"links to \\1">>},
     {<<"^unlink (<[0-9]+>)$">>, <<"unlinks from \\1">>},
     {<<"^register (.*) (<[0-9]+>)$">>, <<"registers \\2 as \\1">>},
     {<<"^unregister (.*)$">>, <<"unregisters \\1">>},
     {<<"^process_flag (true|false)$">>, <<"sets trap_exit to \\1">>},
     {<<"^raise (.*)$">>, <<"raises \\1">>},
     {<<"^end (.*)$">>, <<"ends: \\1">>}].

%% The place in the source, with its text.
-spec placed(place()) -> iodata().
placed({several, Place}) -> ["  % ", plain_words_back:place(Place)];
placed({Kind, File, Line, _} = Place) when Kind =:= user; Kind =:= called ->
    case source(File, Line) of
        none -> ["  % ", plain_words_back:place(Place)];
        Text -> ["  % ", plain_words_back:place(Place), ": ", Text]
    end;
placed(_) -> "".

-spec source(file:filename(), non_neg_integer()) -> binary() | none.
source(File, Line) ->
    Lines = case get({?MODULE, File}) of
        undefined ->
            Compiled = filename:extension(File) =:= ".beam",
            Read = case file:read_file(File) of {ok, Text} when not Compiled -> binary:split(Text, <<"\n">>, [global]); _ -> [] end,
            _ = put({?MODULE, File}, Read),
            Read;
        Known -> Known
    end,
    case Line >= 1 andalso Line =< length(Lines) of
        true -> string:trim(lists:nth(Line, Lines));
        false -> none
    end.
