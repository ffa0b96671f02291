%% @doc The same run in another order: what each process sees, in its order, stays what it is, and so do the numbers of pids and the order
%% of what goes by names; but a process goes on as long as it may. So a report is read with fewer leaps from one process to another.
%%
%% The choices of that order are worked out from the labels: who may go at each event is counted, and where the count isn't that of the report
%% nothing is reported.
-module(plain_order).
-export([fewer_switches/1, switches/1, effects/1]).

-type event() :: plain_report:event().
-type numbered() :: #{pos_integer() => event()}.
%% For each event the channel that it sends on, if any, and who it starts.
-type effects() :: #{pos_integer() => #{sends := [{non_neg_integer(), non_neg_integer()}], spawns := non_neg_integer() | none}}.
-type standing() :: {#{non_neg_integer() => go | waits | ended}, #{{non_neg_integer(), non_neg_integer()} => pos_integer()}}.

%% @doc How often another process goes on than the one before.
-spec switches([event()]) -> non_neg_integer().
switches(Events) ->
    Turns = [P || #{subject := {turn, P}} <- Events],
    length([x || {A, B} <- lists:zip(lists:droplast([none | Turns]), Turns), A =/= B]).

%% @doc The choices of the run in such an order.
-spec fewer_switches([event()]) -> {ok, [non_neg_integer()]} | unknown.
fewer_switches([]) -> unknown;
fewer_switches(Events) ->
    Numbered = maps:from_list(lists:zip(lists:seq(1, length(Events)), Events)),
    Effects = effects(Events),
    case choices(lists:seq(1, length(Events)), Numbered, Effects) of
        {ok, Own} ->
            case Own =:= plain_report:choices(Events) of
                true -> choices(ordered(Numbered, Effects), Numbered, Effects);
                false -> unknown
            end;
        unknown -> unknown
    end.

%% @doc What each event sends and starts. The k-th signal of a kind that is taken from a channel is the k-th that was sent on it, where
%% labels say what may send.
-spec effects([event()]) -> effects().
effects(Events) ->
    Numbered = lists:zip(lists:seq(1, length(Events)), Events),
    {Senders, _} = lists:foldl(fun senders/2, {[], #{}}, Numbered),
    Taken = lists:foldl(fun taken/2, #{}, Numbered),
    Sent = sent(lists:reverse(Senders), Taken),
    maps:from_list([{Number, #{sends => maps:get(Number, Sent, []), spawns => spawned(Event)}} || {Number, Event} <- Numbered]).

%% What an event may send: a kind of signal from a process to another, or to any.
-spec senders({pos_integer(), event()}, {list(), map()}) -> {list(), map()}.
senders({Number, #{subject := {turn, P}, label := Label}}, {Before, Watched}) ->
    case binary:split(Label, <<" ">>, [global]) of
        [<<"send">>, To | _] -> {[{Number, surely, message, P, pid(To)} | Before], Watched};
        [<<"exit">>, To | _] -> {[{Number, surely, exit, P, pid(To)} | Before], Watched};
        [<<"link">>, To] -> {[{Number, maybe, link, P, pid(To)} | Before], Watched};
        [<<"unlink">>, To] -> {[{Number, maybe, unlink, P, pid(To)} | Before], Watched};
        [<<"monitor">>, Reference, To] -> {[{Number, surely, monitor, P, pid(To)} | Before], Watched#{Reference => pid(To)}};
        [<<"spawn_monitor">>, To, Reference] -> {Before, Watched#{Reference => pid(To)}};
        [<<"demonitor">>, Reference | _] ->
            case Watched of
                #{Reference := To} -> {[{Number, maybe, demonitor, P, To} | Before], Watched};
                _ -> {Before, Watched}
            end;
        [<<"end">> | _] -> {[{Number, maybe, down, P, any}, {Number, maybe, exit, P, any} | Before], Watched};
        _ -> {Before, Watched}
    end;
senders({Number, #{subject := {delivery, A, B}, label := Label}}, {Before, Watched}) ->
    case binary:split(Label, <<" ">>, [global]) of
        [<<"deliver">>, <<"link">>, <<"noproc">>] -> {[{Number, surely, exit, B, A} | Before], Watched};
        [<<"deliver">>, <<"monitor">>, <<"noproc">>] -> {[{Number, surely, down, B, A} | Before], Watched};
        [<<"deliver">>, <<"exit">>, <<"ends">> | _] -> {[{Number, maybe, down, B, any}, {Number, maybe, exit, B, any} | Before], Watched};
        _ -> {Before, Watched}
    end.

-spec pid(binary()) -> non_neg_integer().
pid(Pid) -> binary_to_integer(binary:part(Pid, 1, byte_size(Pid) - 2)).

%% How many signals of each kind are taken from each channel.
-spec taken({pos_integer(), event()}, map()) -> map().
taken({_, #{subject := {delivery, A, B}, label := Label}}, Before) ->
    [_, Kind | _] = binary:split(Label, <<" ">>, [global]),
    Key = {A, B, binary_to_atom(Kind)},
    Before#{Key => maps:get(Key, Before, 0) + 1};
taken(_, Before) -> Before.

-spec sent(list(), map()) -> #{pos_integer() => [{non_neg_integer(), non_neg_integer()}]}.
sent(Senders, Taken) ->
    {Sent, _} = lists:foldl(fun({Number, Surely, Kind, From, To}, {Known, Left}) ->
        Receivers = case To of
            any -> lists:sort([B || {A, B, K} <- maps:keys(Left), A =:= From, K =:= Kind, maps:get({A, B, K}, Left) > 0]);
            _ -> [To || Surely =:= surely orelse maps:get({From, To, Kind}, Left, 0) > 0]
        end,
        Fewer = lists:foldl(fun(B, L) -> L#{{From, B, Kind} => maps:get({From, B, Kind}, L, 0) - 1} end, Left, Receivers),
        {Known#{Number => maps:get(Number, Known, []) ++ [{From, B} || B <- Receivers]}, Fewer}
    end, {#{}, Taken}, Senders),
    Sent.

-spec spawned(event()) -> non_neg_integer() | none.
spawned(#{label := Label}) ->
    case binary:split(Label, <<" ">>, [global]) of
        [Word, Pid | _] when Word =:= <<"spawn">>; Word =:= <<"spawn_link">>; Word =:= <<"spawn_monitor">> -> pid(Pid);
        _ -> none
    end.

%% The choice of each event in an order, by who may go before it.
-spec choices([pos_integer()], numbered(), effects()) -> {ok, [non_neg_integer()]} | unknown.
choices(Order, Numbered, Effects) -> choices(Order, Numbered, Effects, {#{0 => go}, #{}}, []).

-spec choices([pos_integer()], numbered(), effects(), standing(), [non_neg_integer()]) -> {ok, [non_neg_integer()]} | unknown.
choices([], _, _, _, Before) -> {ok, lists:reverse(Before)};
choices([Number | Rest], Numbered, Effects, {Processes, Channels} = Standing, Before) ->
    #{Number := #{subject := Subject} = Event} = Numbered,
    Going = lists:sort([P || {P, go} <- maps:to_list(Processes)]),
    Open = lists:sort(maps:keys(Channels)),
    Rank = case Subject of
        {turn, P} -> rank(P, Going);
        {delivery, A, B} -> case rank({A, B}, Open) of none -> none; Place -> length(Going) + Place end
    end,
    case Rank of
        none -> unknown;
        _ -> choices(Rest, Numbered, Effects, after_event(Event, maps:get(Number, Effects), Standing), [Rank | Before])
    end.

-spec rank(Element, [Element]) -> non_neg_integer() | none.
rank(Element, List) ->
    case lists:splitwith(fun(Other) -> Other =/= Element end, List) of
        {Smaller, [_ | _]} -> length(Smaller);
        {_, []} -> none
    end.

-spec after_event(event(), map(), standing()) -> standing().
after_event(#{subject := Subject, label := Label}, #{sends := Sends, spawns := Spawned}, {Processes, Channels}) ->
    {Own, Left} = case {Subject, Label} of
        {{turn, P}, <<"wait">>} -> {Processes#{P => waits}, Channels};
        {{turn, P}, <<"end ", _/binary>>} -> {Processes#{P => ended}, Channels};
        {{turn, _}, _} -> {Processes, Channels};
        {{delivery, A, B}, _} -> {delivered(B, Label, Processes), fewer({A, B}, Channels)}
    end,
    Started = case Spawned of none -> Own; _ -> Own#{Spawned => go} end,
    {Started, lists:foldl(fun(Channel, Known) -> Known#{Channel => maps:get(Channel, Known, 0) + 1} end, Left, Sends)}.

-spec delivered(non_neg_integer(), binary(), map()) -> map().
delivered(B, <<"deliver exit ends", _/binary>>, Processes) -> Processes#{B => ended};
delivered(B, Label, #{} = Processes) ->
    Placed = Label =:= <<"deliver message">> orelse Label =:= <<"deliver down">> orelse Label =:= <<"deliver exit message">>,
    case Processes of
        #{B := waits} when Placed -> Processes#{B => go};
        _ -> Processes
    end.

-spec fewer({non_neg_integer(), non_neg_integer()}, map()) -> map().
fewer(Channel, Channels) ->
    case Channels of
        #{Channel := 1} -> maps:remove(Channel, Channels);
        #{Channel := Number} -> Channels#{Channel => Number - 1};
        _ -> Channels
    end.

%% An order in which each event comes after those that it depends on, and a process goes on as long as it may.
-spec ordered(numbered(), effects()) -> [pos_integer()].
ordered(Numbered, Effects) ->
    Numbers = lists:sort(maps:keys(Numbered)),
    Before = dependencies(Numbers, Numbered, Effects),
    Queues = lists:foldr(fun(Number, Known) ->
        At = at(Number, Numbered),
        Known#{At => [Number | maps:get(At, Known, [])]}
    end, #{}, Numbers),
    go_on(Queues, 0, Before, #{}, []).

%% For each event those that have to come before: the one before at its process, the one before of those that go by names or start
%% processes, what sent the signal that is delivered, and what started its process. A time passes after all that is before it.
-spec dependencies([pos_integer()], numbered(), effects()) -> #{pos_integer() => [pos_integer()]}.
dependencies(Numbers, Numbered, Effects) ->
    Tickers = plain_time:tickers(maps:values(Numbered)),
    {Before, _} = lists:foldl(fun(Number, {Known, State}) ->
        #{Number := #{subject := Subject} = Event} = Numbered,
        #{Number := #{sends := Sends, spawns := Spawned}} = Effects,
        #{last := Last, shared := Shared, signals := Signals, passed := Passed} = State,
        At = case Subject of {turn, P} -> P; {delivery, _, B} -> B end,
        Together = is_shared(Event),
        Passes = plain_time:passes(Event, Tickers),
        {Sent, Left} = case Subject of
            {delivery, From, To} ->
                case maps:get({From, To}, Signals, []) of
                    [First | Others] -> {[First], Signals#{{From, To} => Others}};
                    [] -> {[], Signals}
                end;
            _ -> {[], Signals}
        end,
        Needs = [N || N <- [maps:get(At, Last, none), Passed] ++ [Shared || Together] ++ Sent, N =/= none] ++ lists:append([maps:values(Last) || Passes]),
        More = lists:foldl(fun(Channel, S) -> S#{Channel => maps:get(Channel, S, []) ++ [Number]} end, Left, Sends),
        Lasts = case Spawned of none -> Last#{At => Number}; _ -> Last#{At => Number, Spawned => Number} end,
        {Known#{Number => Needs}, #{last => Lasts, shared => case Together of true -> Number; false -> Shared end, signals => More,
                                    passed => case Passes of true -> Number; false -> Passed end}}
    end, {#{}, #{last => #{}, shared => none, signals => #{}, passed => none}}, Numbers),
    Before.

%% Whether an event reads or writes what all processes share: names, and the numbers of pids and references.
-spec is_shared(event()) -> boolean().
is_shared(#{label := Label}) ->
    [Word | More] = binary:split(Label, <<" ">>, [global]),
    lists:member(Word, [<<"spawn">>, <<"spawn_link">>, <<"spawn_monitor">>, <<"register">>, <<"unregister">>, <<"whereis">>, <<"raise">>, <<"end">>,
                        <<"monitor">>, <<"make_ref">>])
        orelse (Word =:= <<"deliver">> andalso lists:member(<<"ends">>, More)).

%% The next event of the process that goes, where it may come; else the first that may.
-spec go_on(#{non_neg_integer() => [pos_integer()]}, non_neg_integer(), map(), #{pos_integer() => true}, [pos_integer()]) -> [pos_integer()].
go_on(Queues, _, _, _, Order) when map_size(Queues) =:= 0 -> lists:reverse(Order);
go_on(Queues, Current, Before, Done, Order) ->
    May = fun(Number) -> lists:all(fun(Need) -> maps:is_key(Need, Done) end, maps:get(Number, Before)) end,
    {Next, Process} = case Queues of
        #{Current := [Own | _]} -> case May(Own) of true -> {Own, Current}; false -> first(Queues, May) end;
        _ -> first(Queues, May)
    end,
    Left = case maps:get(Process, Queues) of
        [_] -> maps:remove(Process, Queues);
        [_ | Later] -> Queues#{Process => Later}
    end,
    go_on(Left, Process, Before, Done#{Next => true}, [Next | Order]).

-spec first(#{non_neg_integer() => [pos_integer()]}, fun((pos_integer()) -> boolean())) -> {pos_integer(), non_neg_integer()}.
first(Queues, May) -> lists:min([{Number, Process} || {Process, [Number | _]} <- maps:to_list(Queues), May(Number)]).

-spec at(pos_integer(), numbered()) -> non_neg_integer().
at(Number, Numbered) ->
    case maps:get(Number, Numbered) of
        #{subject := {turn, P}} -> P;
        #{subject := {delivery, _, B}} -> B
    end.
