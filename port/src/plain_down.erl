%% @doc `'DOWN'' of a monitor by name. The profile monitors pids alone, so where a program monitors names what is in the place of the pid is
%% asked for where such a message is received: {Name, Node} of a monitor by name, else the pid.
-module(plain_down).
-export([monitored/2, seen/1, clauses/2]).

-type tree() :: plain_tree:tree().

%% @doc Notes what a source monitors: a name, or what may be one.
-spec monitored(tree(), plain_tree:environment()) -> ok.
monitored(Object, Env) ->
    case {plain_state:get(kind), Object, plain_call:an_atom(Object, Env)} of
        {user, {tup, _}, _} -> plain_state:set_in(monitors, name, true);
        {user, _, {ok, _}} -> plain_state:set_in(monitors, name, true);
        {user, _, no} -> plain_state:set_in(monitors, maybe_name, true);
        _ -> ok
    end.

%% @doc Notes that a source looks for a name in such a message.
-spec seen(term()) -> ok.
seen(Clauses) -> plain_state:get(kind) =:= user andalso looks(Clauses) andalso plain_state:set_in(monitors, looks, true), ok.

-spec looks(term()) -> boolean().
looks({lit, _, _}) -> false;
looks({tup, [{lit, 'DOWN', _}, _, _, {tup, _}, _]}) -> true;
looks(Tree) when is_tuple(Tree) -> looks(tuple_to_list(Tree));
looks([Head | Tail]) -> looks(Head) orelse looks(Tail);
looks(_) -> false.

%% @doc The clauses of a receive, in which such a message has the name.
-spec clauses([plain_tree:clause()], plain_tree:line()) -> [plain_tree:clause()].
clauses(Clauses, Line) ->
    case plain_state:get(named) of
        true -> each(Clauses, Line);
        false -> Clauses
    end.

-spec each([plain_tree:clause()], plain_tree:line()) -> [plain_tree:clause()].
each([{[{v, _} = Message], Guard, Body} = Clause | Rest], Line) ->
    case plain_tree:is_true(Guard) andalso sets:is_element(Message, plain_tree:occurring(Body)) of
        true ->
            [R, Kind, Object, Why, Named] = [fresh() || _ <- lists:seq(1, 5)],
            Whole = {tup, [{lit, 'DOWN', Line}, R, Kind, Named, Why]},
            [{[{tup, [{lit, 'DOWN', Line}, R, Kind, Object, Why]}], Guard, {'let', [Named], object(R, Object, Line), {'let', [Message], Whole, Body}}}, Clause | each(Rest, Line)];
        false -> [Clause | each(Rest, Line)]
    end;
each([{[{tup, [{lit, 'DOWN', _} = Down, R, Kind, {v, _} = Object, Why]}], Guard, Body} = Clause | Rest], Line) ->
    {InGuard, InBody} = {plain_tree:occurring(Guard), plain_tree:occurring(Body)},
    case sets:is_element(Object, InBody) andalso not sets:is_element(Object, InGuard) of
        true ->
            [Reference, Pid] = [fresh(), fresh()],
            [{[{tup, [Down, {alias, Reference, R}, Kind, Pid, Why]}], Guard, {'let', [Object], object(Reference, Pid, Line), Body}} | each(Rest, Line)];
        false -> [Clause | each(Rest, Line)]
    end;
each([{[{tup, [{lit, 'DOWN', _} = Down, OfR, OfKind, {tup, _} = Name, OfWhy]}], Guard, _} = Clause | Rest], Line) ->
    [R, Kind, Object, Why, Named, Message] = [fresh() || _ <- lists:seq(1, 6)],
    Before = case sets:is_disjoint(plain_tree:occurring(Guard), plain_tree:occurring(Name)) of true -> Guard; false -> {lit, true, Line} end,
    Last = {[fresh()], {lit, true, Line}, {call, {lit, prim, Line}, {lit, raw, Line}, [{lit, exit, Line}, {lit, {refused, 'receive', Line}, Line}], Line}},
    Chosen = {'case', [Message], [Clause | Rest] ++ [Last], Line},
    [{[{tup, [Down, {alias, R, OfR}, {alias, Kind, OfKind}, Object, {alias, Why, OfWhy}]}], Before,
      {'let', [Named], object(R, Object, Line), {'let', [Message], {tup, [Down, R, Kind, Named, Why]}, Chosen}}} | each(Rest, Line)];
each([Clause | Rest], Line) -> [Clause | each(Rest, Line)];
each([], _) -> [].

-spec fresh() -> plain_tree:variable().
fresh() -> {v, {'D', plain_state:fresh()}}.

-spec object(tree(), tree(), plain_tree:line()) -> tree().
object(Reference, Pid, Line) -> {call, {lit, erlang, Line}, {lit, down_object, Line}, [Reference, Pid], Line}.
