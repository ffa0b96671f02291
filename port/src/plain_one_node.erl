%% @doc What one node can't show. There a signal is in the mailbox as soon as it is sent, so signals to a process come
%% in the order of their causes. A run is one of a node where its sends can be put into an order in which each delivery
%% comes with its send, and each process still sees what it saw: the same signals in the same order before the same
%% turns, and the same names.
-module(plain_one_node).
-export([crossed/1]).

-type event() :: plain_report:event().
%% What is known before an event: the sends of each channel that aren't delivered; the last turn of each process, with
%% its last delivery and those since that turn; who has had a name, and the last event that uses names; what has to
%% come before what.
-type state() :: #{sent := #{{non_neg_integer(), non_neg_integer()} => [pos_integer()]},
        turns := #{non_neg_integer() => pos_integer()},
                   last := #{non_neg_integer() => pos_integer()}, since := #{non_neg_integer() => [pos_integer()]},
                   named := [non_neg_integer()], name := pos_integer() | none, edges := [{pos_integer(),
                           pos_integer()}]}.

%% @doc Whether signals of a run crossed as one node doesn't show it. Where the report doesn't say what was delivered,
%% they didn't.
-spec crossed([event()]) -> boolean().
crossed(Events) ->
    Effects = plain_order:effects(Events),
    First = #{sent => #{}, turns => #{}, last => #{}, since => #{}, named => [], name => none, edges => []},
    case each(lists:zip(lists:seq(1, length(Events)), Events), Effects, First) of
        unknown -> false;
        #{edges := Edges} -> not is_ordered(lists:usort([Edge || {A, B} = Edge <- Edges, A =/= B]))
    end.

-spec each([{pos_integer(), event()}], map(), state()) -> state() | unknown.
each([{Number, #{subject := Subject} = Event} | Rest], Effects, State) ->
    #{Number := #{sends := Sends, spawns := Spawned}} = Effects,
    case node(Number, Subject, State) of
        {unknown, _} -> unknown;
        {Node, Taken} -> each(Rest, Effects, started(Spawned, Node, sent(Sends, Node, seen(Node, Event, Taken))))
    end;
each([], _, State) -> State.

%% The place of an event in the order: of a delivery, that of its send.
-spec node(pos_integer(), tuple(), state()) -> {pos_integer() | unknown, state()}.
node(Number, {turn, _}, State) -> {Number, State};
node(_, {delivery, A, B}, #{sent := Sent} = State) ->
    case Sent of
        #{{A, B} := [Node | Others]} -> {Node, State#{sent := Sent#{{A, B} := Others}}};
        _ -> {unknown, State}
    end.

-spec sent([{non_neg_integer(), non_neg_integer()}], pos_integer(), state()) -> state().
sent(Channels, Node, #{sent := Sent} = State) ->
    State#{sent := lists:foldl(fun(Channel, Known) -> Known#{Channel => maps:get(Channel, Known, []) ++ [Node]} end,
            Sent, Channels)}.

-spec started(non_neg_integer() | none, pos_integer(), state()) -> state().
started(none, _, State) -> State;
started(Process, Node, #{turns := Turns} = State) -> State#{turns := Turns#{Process => Node}}.

%% What has to come before an event.
-spec seen(pos_integer(), event(), state()) -> state().
seen(Node, #{subject := {turn, P}, label := Label} = Event, #{turns := Turns, since := Since,
        edges := Edges} = State) ->
    Before = [maps:get(P, Turns, Node) | maps:get(P, Since, [])],
    Own = State#{turns := Turns#{P => Node}, since := Since#{P => []}, edges := [{Earlier,
            Node} || Earlier <- Before] ++ Edges},
    with_names(names(Label, P, Own), Node, Event, Own);
seen(Node, #{subject := {delivery, _, B}, label := Label} = Event, #{turns := Turns, last := Last, since := Since,
        edges := Edges} = State) ->
    Ends = re:run(Label, <<"^deliver (exit ends|[a-z]+ noproc)">>) =/= nomatch,
    Before = [maps:get(B, Last, Node)] ++ [maps:get(B, Turns, Node) || Ends],
    Own = State#{last := Last#{B => Node}, since := Since#{B => [Node | maps:get(B, Since, [])]}, edges := [{Earlier,
            Node} || Earlier <- Before] ++ Edges},
    with_names(Ends andalso lists:member(B, maps:get(named, Own)), Node, Event, Own).

%% Whether an event uses names: that of who had one ends it.
-spec names(binary(), non_neg_integer(), state()) -> boolean().
names(Label, P, #{named := Named}) ->
    case binary:split(Label, <<" ">>) of
        [Word | _] when Word =:= <<"register">>; Word =:= <<"unregister">>; Word =:= <<"whereis">>;
                Word =:= <<"raise">> -> true;
        [<<"end">> | _] -> lists:member(P, Named);
        _ -> false
    end.

%% Events that go by names keep their order.
-spec with_names(boolean(), pos_integer(), event(), state()) -> state().
with_names(false, _, _, State) -> State;
with_names(true, Node, #{label := Label}, #{name := Before, named := Named, edges := Edges} = State) ->
    Taken = case re:run(Label, <<"^register .* <([0-9]+)>$">>, [{capture, [1], binary}]) of
        {match, [P]} -> [binary_to_integer(P)];
        nomatch -> []
    end,
    State#{name := Node, named := Taken ++ Named, edges := [{Before, Node} || Before =/= none] ++ Edges}.

%% Whether there is an order with these pairs: who has nobody before goes first, again and again, until nobody is left.
-spec is_ordered([{pos_integer(), pos_integer()}]) -> boolean().
is_ordered(Edges) ->
    After = lists:foldl(fun({A, B}, Known) -> Known#{A => [B | maps:get(A, Known, [])]} end, #{}, Edges),
    Waits = lists:foldl(fun({_, B}, Known) -> Known#{B => maps:get(B, Known, 0) + 1} end, #{}, Edges),
    gone([A || A <- maps:keys(After), not maps:is_key(A, Waits)], After, Waits).

-spec gone([pos_integer()], #{pos_integer() => [pos_integer()]}, #{pos_integer() => pos_integer()}) -> boolean().
gone([], _, Waits) -> map_size(Waits) =:= 0;
gone([Node | Rest], After, Waits) ->
    {Free, Left} = lists:foldl(fun(Next, {Found, Known}) ->
        case Known of
            #{Next := 1} -> {[Next | Found], maps:remove(Next, Known)};
            #{Next := Number} -> {Found, Known#{Next := Number - 1}}
        end
    end, {Rest, Waits}, maps:get(Node, After, [])),
    gone(Free, After, Left).
