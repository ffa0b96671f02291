%% @doc Answers of pulsefarm in the words of the source: each event with its place, each process with the function that it runs, and
%% each crash with file, line and function.
-module(plain_answer).
-export([lines/3, story/3, text/1, why/1, report/1, ends/1, orderly/1, replayed/3, role/2, where/5, reason/2, event_place/2, last_places/2, starts_report/1]).
-export_type([reported/0]).

-type asked() :: plain_words:asked().
-type translation() :: plain_translation:translation().
%% The places of a run, or that they can't be shown.
-type reported() :: {ok, plain_replay:reported(), translation()} | unknown.

%% @doc An answer, line by line.
-spec lines(binary(), asked(), translation()) -> [plain_json:line()].
lines(Answer, Asked, #{names := Names} = Translation) ->
    Lines = binary:split(Answer, <<"\n">>, [global, trim]),
    {Before, Report} = lists:splitwith(fun(Line) -> not starts_report(Line) end, Lines),
    Own = fun(Line) -> {plain_words_back:line(Line, Names), plain_json:of_line(plain_words_back:line(Line, Names))} end,
    case plain_report:read(Report) of
        #{events := []} -> [Own(Line) || Line <- Lines];
        #{events := Events, rest := Rest} ->
            Reported = replayed(Asked, Translation, Events),
            Verbose = maps:get(verbose, Asked, false),
            [{Line, plain_json:of_line(Line)} || Line <- Before] ++ events(Events, Reported, Names, Verbose) ++ [Own(Line) || Line <- Rest]
                ++ processes(Events, Reported, #{verbose => Verbose}) ++ waits(Events, Rest, Reported, Asked) ++ crashes(Events, Reported, Translation)
    end.

%% @doc Lines as one text.
-spec text([plain_json:line()]) -> binary().
text(Lines) -> unicode:characters_to_binary([[Text, "\n"] || {Text, _} <- Lines]).

%% @doc The line that says why a run fails.
-spec why([plain_json:line()]) -> plain_json:line().
why(Lines) ->
    Of = fun(Keys) -> [Line || {_, [{Key, _} | _]} = Line <- Lines, lists:member(Key, Keys)] end,
    case Of([crash, refused]) ++ Of([waits]) ++ Of([<<"limit">>, <<"ended">>, ended, <<"deadlock">>]) of
        [First | _] -> First;
        [] -> {"fails", [{fails, true}]}
    end.

%% @doc The report in an answer.
-spec report(binary()) -> plain_report:report().
report(Answer) ->
    Lines = binary:split(Answer, <<"\n">>, [global, trim]),
    plain_report:read(case lists:dropwhile(fun(Line) -> not starts_report(Line) end, Lines) of [] -> Lines; Report -> Report end).

%% @doc Whether a report begins with this line.
-spec starts_report(binary()) -> boolean().
starts_report(Line) -> re:run(Line, <<"^[0-9]+/[0-9]+ <">>) =/= nomatch.

%% @doc The run once more, with its places.
-spec replayed(asked(), translation(), [plain_report:event()]) -> reported().
replayed(#{files := Files, options := Options}, #{roots := [Root | _]}, Events) ->
    plain_replay:places(Files, Options, atom_to_list(Root), Events).

%% All events with their places where that was asked for, or where places can't be shown; else the story.
-spec events([plain_report:event()], reported(), #{atom() => plain_translation:place()}, boolean()) -> [plain_json:line()].
events(Events, unknown, Names, _) -> [event(Event, none, Names) || Event <- Events];
events(Events, {ok, #{events := Known}, #{marks := Places}} = Reported, Names, Verbose) ->
    Marks = waited(Events, [place_of(Mark, Places) || Mark <- Known], #{}),
    case Verbose of
        true -> [event(Event, Place, Names) || {Event, Place} <- lists:zip(Events, Marks)];
        false -> plain_story:lines(Events, Marks, {Reported, Names})
    end.

%% @doc The events of a story by their numbers, each in its words; or that its places can't be shown.
-spec story([plain_report:event()], reported(), translation()) -> [{pos_integer(), binary()}] | unknown.
story(_, unknown, _) -> unknown;
story(Events, Reported, #{names := Names}) ->
    [{Number, unicode:characters_to_binary(Label)} || {_, Object} <- events(Events, Reported, Names, false),
                                                     {event, Number} <- [lists:keyfind(event, 1, Object)], {label, Label} <- [lists:keyfind(label, 1, Object)]].

%% What is received after a wait is received where the process waited.
-spec waited([plain_report:event()], [plain_translation:place() | none], #{non_neg_integer() => plain_translation:place() | none}) ->
    [plain_translation:place() | none].
waited([#{subject := {turn, P}, label := <<"wait">>} | Events], [Place | Places], Waits) -> [Place | waited(Events, Places, Waits#{P => Place})];
waited([#{subject := {turn, P}, label := <<"receive ", _/binary>>} | Events], [none | Places], Waits) -> [maps:get(P, Waits, none) | waited(Events, Places, Waits)];
waited([_ | Events], [Place | Places], Waits) -> [Place | waited(Events, Places, Waits)];
waited([], [], _) -> [].

-spec event(plain_report:event(), plain_translation:place() | none, #{atom() => plain_translation:place()}) -> plain_json:line().
event(#{choice := Choice, among := Among, subject := Subject, label := Label}, Place, Names) ->
    Who = case Subject of
        {turn, P} -> io_lib:format("<~w>", [P]);
        {delivery, A, B} -> io_lib:format("<~w>-><~w>", [A, B])
    end,
    Said = plain_words_back:line(Label, Names),
    {[io_lib:format("~w/~w ~ts ", [Choice, Among, Who]), Said, case Place of none -> []; _ -> ["  % ", plain_words_back:place(Place)] end],
     [{choice, Choice}, {count, Among}, {actor, Who}, {label, Said} | plain_json:place(Place)]}.

%% The place that a mark means.
-spec place_of(binary() | none, #{pos_integer() => plain_translation:place()}) -> plain_translation:place() | none.
place_of(<<"'@", Rest/binary>>, Places) ->
    case string:to_integer(Rest) of
        {Number, <<"'">>} -> maps:get(Number, Places, none);
        _ -> none
    end;
place_of(_, _) -> none.

-spec processes([plain_report:event()], reported(), #{verbose := boolean()}) -> [plain_json:line()].
processes(_, unknown, _) -> [{"the places of this run can't be shown", [{places, false}]}];
processes(Events, Reported, #{verbose := Verbose}) ->
    Pids = lists:usort([P || #{subject := {turn, P}} <- Events]),
    Roles = [{P, lists:flatten(io_lib:format("~ts", [role(P, Reported)]))} || P <- Pids],
    [{io_lib:format("<~w> ~ts", [P, Role]), [{process, pid(P)}, {runs, Role}]} || {P, Role} <- Roles, Verbose orelse not lists:prefix("the service", Role)].

-spec pid(non_neg_integer()) -> string().
pid(P) -> lists:flatten(io_lib:format("<~w>", [P])).

%% @doc What a process runs.
-spec role(non_neg_integer() | none, reported()) -> iodata() | unknown.
role(_, unknown) -> unknown;
role(0, {ok, _, #{roots := [Root | _], main := Main}}) -> io_lib:format("~w:~w/0", [Main, Root]);
role(Process, {ok, #{begins := Begins}, Traced}) -> begun(maps:get(Process, Begins, none), Traced).

%% @doc The place of an event, counted from 1.
-spec event_place(pos_integer() | none, reported()) -> plain_translation:place() | none.
event_place(Number, {ok, #{events := Marks}, #{marks := Places}}) when is_integer(Number), Number =< length(Marks) ->
    place_of(lists:nth(Number, Marks), Places);
event_place(_, _) -> none.

%% What a process runs, by the mark at its beginning.
-spec begun(binary() | none, translation()) -> iodata().
begun(none, _) -> "not begun";
begun(<<"'@f ", Rest/binary>>, #{names := Names}) ->
    Named = binary:part(Rest, 0, byte_size(Rest) - 1),
    Name = binary_to_atom(hd(binary:split(Named, <<"/">>))),
    case Names of
        #{Name := {user, File, Line, Function}} when Line > 0 -> [plain_words_back:function(Function), ", ", plain_refusal:place(File, Line)];
        #{Name := {user, _, _, Function}} -> plain_words_back:function(Function);
        #{Name := {_, _, _, {'fun', {Module, start, 0}}}} -> ["the service ", re:replace(atom_to_list(Module), "^pf_", "")];
        #{Name := {_, _, _, Function}} -> ["library ", plain_words_back:function(Function)];
        _ -> Named
    end;
begun(<<"'", _/binary>>, _) -> "library";
begun(Module, #{exports := Exports}) ->
    Name = binary_to_atom(Module),
    Known = maps:get(Name, Exports, []),
    case {Name, lists:member({callback_mode, 0}, Known)} of
        {supervisor, _} -> "supervisor";
        {_, true} -> ["gen_statem ", Module];
        {_, false} -> ["gen_server ", Module]
    end.

%% @doc How processes end: each with the number of its event, its reason, and who sent it where a signal ended it.
-spec ends([plain_report:event()]) -> [{non_neg_integer(), non_neg_integer(), binary(), own | {by, non_neg_integer()}}].
ends(Events) ->
    Numbered = lists:zip(lists:seq(1, length(Events)), Events),
    lists:append([ending(Number, Event) || {Number, Event} <- Numbered]).

-spec ending(pos_integer(), plain_report:event()) -> [{non_neg_integer(), non_neg_integer(), binary(), own | {by, non_neg_integer()}}].
ending(Number, #{subject := {turn, P}, label := <<"end ", Reason/binary>>}) -> [{Number, P, Reason, own}];
ending(Number, #{subject := {delivery, A, B}, label := <<"deliver exit ends ", Reason/binary>>}) -> [{Number, B, Reason, {by, A}}];
ending(_, _) -> [].

%% Where the processes of a deadlock wait, and, where leaks are looked for, those that the root left.
-spec waits([plain_report:event()], [binary()], reported(), asked()) -> [plain_json:line()].
waits(Events, [<<"deadlock ", Pids/binary>> | _], Reported, _) ->
    waiting([P || Pid <- binary:split(Pids, <<" ">>, [global, trim]), {P, _} <- [string:to_integer(binary:part(Pid, 1, byte_size(Pid) - 2))]], Events, Reported);
waits(Events, Rest, Reported, #{words := Words}) ->
    waiting(case lists:member("--leaks", Words) of true -> plain_verdict:left(Events, Rest); false -> [] end, Events, Reported).

-spec waiting([non_neg_integer()], [plain_report:event()], reported()) -> [plain_json:line()].
waiting(_, _, unknown) -> [];
waiting(Pids, Events, Reported) ->
    Last = last_places(Events, Reported),
    [wait(P, maps:get(P, Last, none), Reported) || P <- Pids].

%% @doc The place at which each process waited last.
-spec last_places([plain_report:event()], reported()) -> #{non_neg_integer() => plain_translation:place() | none}.
last_places(_, unknown) -> #{};
last_places(Events, {ok, #{events := Marks}, #{marks := Places}}) ->
    maps:from_list([{P, place_of(Mark, Places)} || {#{subject := {turn, P}, label := <<"wait">>}, Mark} <- lists:zip(Events, Marks), Mark =/= none]).

-spec wait(non_neg_integer(), plain_translation:place() | none, reported()) -> plain_json:line().
wait(P, {Kind, _, _, _} = Place, _) when Kind =:= user; Kind =:= called -> {io_lib:format("waits <~w> at ~ts", [P, plain_words_back:place(Place)]), [{waits, pid(P)} | plain_json:place(Place)]};
wait(P, _, Reported) -> {io_lib:format("waits <~w> in ~ts", [P, role(P, Reported)]), [{waits, pid(P)}, {runs, role(P, Reported)}]}.

-spec crashes([plain_report:event()], reported(), translation()) -> [plain_json:line()].
crashes(Events, Reported, #{names := Names}) ->
    [crash(End, Events, Reported, Names) || {_, _, Reason, _} = End <- ends(Events), Reason =/= <<"normal">>].

-spec crash({non_neg_integer(), non_neg_integer(), binary(), own | {by, non_neg_integer()}}, [plain_report:event()], reported(), map()) -> plain_json:line().
crash({_, P, Reason, {by, A}}, _, _, Names) ->
    Said = plain_words_back:line(Reason, Names),
    {io_lib:format("ended <~w> by a signal of <~w>: ~ts", [P, A, Said]), [{ended, pid(P)}, {by, pid(A)}, {reason, Said}]};
crash({Number, P, Reason, own}, Events, Reported, Names) ->
    {Where, Keys} = standing(Number, P, Reason, Events, Reported),
    {Class, Said} = reason(Reason, Names),
    Lacks = [Lacked || {N, _, Lacked} <- plain_verdict:gaps(Events), N =:= Number],
    case {Lacks, orderly(Reason), with(Number, P, Reason, Where, Events)} of
        {[Lacked], _, _} -> {io_lib:format("refused <~w> ~ts~ts ~s", [P, Where, Lacked, cure(Lacked, Reported)]), [{refused, pid(P)} | Keys] ++ [{lacks, Lacked}, {cure, cure(Lacked, Reported)}]};
        {[], true, _} -> {io_lib:format("ended <~w> ~ts~s ~ts", [P, Where, Class, Said]), [{ended, pid(P)} | Keys] ++ [{class, Class}, {reason, Said}]};
        {[], false, {yes, A}} ->
            {io_lib:format("ended <~w> as <~w> did: ~s ~ts", [P, A, Class, Said]), [{ended, pid(P)}, {as, pid(A)}, {class, Class}, {reason, Said}]};
        {[], false, no} ->
            Given = arguments(Number, Reported, Names),
            {[io_lib:format("crash <~w> ~ts~s ~ts", [P, Where, Class, Said]), [[" for (", A, ")"] || A <- Given]],
             [{crash, pid(P)} | Keys] ++ [{class, Class}, {reason, Said}] ++ [{arguments, A} || A <- Given]}
    end.

%% Who ended before by the same reason, as this process knew: a server ends as its parent does. An end at a line of the source is its own.
-spec with(pos_integer(), non_neg_integer(), binary(), iodata(), [plain_report:event()]) -> {yes, non_neg_integer()} | no.
with(_, _, _, ["at " | _], _) -> no;
with(Number, P, Reason, _, Events) ->
    Known = [A || #{subject := {turn, Q}, label := <<"receive {'EXIT',<", Rest/binary>>} <- lists:sublist(Events, Number), Q =:= P,
                  [Pid, Of] <- [binary:split(Rest, <<">,">>)], Of =:= <<Reason/binary, "}">>, A <- [binary_to_integer(Pid)]],
    case Known of
        [] -> no;
        _ -> {yes, lists:last(Known)}
    end.

%% The arguments for which a function had no clause, where the run has them.
-spec arguments(pos_integer(), reported(), map()) -> [binary()].
arguments(Number, {ok, #{arguments := #{} = Known}, _}, Names) when is_map_key(Number, Known) -> [plain_words_back:line(maps:get(Number, Known), Names)];
arguments(_, _, _) -> [].

%% What to do about what is lacking.
-spec cure(binary(), reported()) -> string().
cure(Lacked, {ok, _, #{exports := Exports}}) ->
    case binary:split(Lacked, <<":">>) of
        [Module, Function] ->
            case maps:is_key(binary_to_atom(Module), Exports) of
                true -> "is named by the tag of a message; say --calls " ++ binary_to_list(Module) ++ ":" ++ binary_to_list(hd(binary:split(Function, <<"/">>)));
                false -> "is not translated, or not with these arguments"
            end;
        _ -> "is not translated"
    end;
cure(_, unknown) -> "is not translated, or not with these arguments".

%% @doc Whether a process ends in order by this reason, as supervisors have it.
-spec orderly(binary()) -> boolean().
orderly(<<"normal">>) -> true;
orderly(<<"shutdown">>) -> true;
orderly(<<"{shutdown,", _/binary>> = Reason) -> plain_words_back:size(Reason) =:= 2;
orderly(_) -> false.

%% @doc The place of an end: its own mark; or that of the action that raised; else the last place of the source that the process came by.
-spec where(pos_integer(), non_neg_integer(), binary(), [plain_report:event()], reported()) -> iodata().
where(Number, P, Reason, Events, Reported) -> element(1, standing(Number, P, Reason, Events, Reported)).

%% The place of an end as text, and as the keys of an object.
-spec standing(pos_integer(), non_neg_integer(), binary(), [plain_report:event()], reported()) -> plain_json:line().
standing(_, _, _, _, unknown) -> {"", []};
standing(Number, P, Reason, Events, {ok, #{events := Marks}, #{marks := Places, atoms := Atoms}} = Reported) ->
    Own = [{N, Label, place_of(Mark, Places)} || {N, {#{subject := {turn, Q}, label := Label}, Mark}} <- lists:zip(lists:seq(1, length(Events)), lists:zip(Events, Marks)),
                                                 Q =:= P, N =< Number],
    Placed = [{N, Label, Place} || {N, Label, {Kind, _, _, _} = Place} <- lists:reverse(Own), Kind =:= user orelse Kind =:= called],
    Raised = case lists:reverse(Own) of [_, {N1, <<"raise ", _/binary>>, _} | _] -> N1; _ -> Number end,
    case Placed of
        [{N, _, Place} | _] when N =:= Number; N =:= Raised -> {["at ", plain_words_back:place(Place), ": "], plain_json:place(Place)};
        [{_, _, Place} | _] -> {["after ", plain_words_back:place(Place), ": "], plain_json:place(Place) ++ [{'after', true}]};
        [] -> {["in ", role(P, Reported), placed(Reason, Atoms), ": "], [{runs, role(P, Reported)}]}
    end.

%% Where the first word of a reason is in the sources, which a callback returned.
-spec placed(binary(), #{atom() => [plain_translation:place()]}) -> iodata().
placed(Reason, Atoms) ->
    Words = case re:run(Reason, <<"[a-z][A-Za-z0-9_@]*">>, [global, {capture, first, binary}]) of
        {match, Found} -> [binary_to_atom(Word) || [Word] <- Found];
        nomatch -> []
    end,
    case [{Word, lists:last(Places)} || Word <- Words, {ok, Places} <- [maps:find(Word, Atoms)]] of
        [{Word, Place} | _] -> io_lib:format(", ~w is at ~ts", [Word, plain_words_back:place(Place)]);
        [] -> ""
    end.

%% @doc The class of an end, and what was raised.
-spec reason(binary(), map()) -> {string(), binary()}.
reason(Reason, Names) ->
    Known = plain_words_back:line(Reason, Names),
    case {re:run(Known, <<"^\\{\\{nocatch,(.*)\\},\\[\\]\\}$">>, [{capture, [1], binary}, dotall]), re:run(Known, <<"^\\{(.*),\\[\\]\\}$">>, [{capture, [1], binary}, dotall])} of
        {{match, [Thrown]}, _} -> {"throw", Thrown};
        {nomatch, {match, [Error]}} -> {"error", Error};
        {nomatch, nomatch} -> {"exit", Known}
    end.
