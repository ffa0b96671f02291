%% @doc `receive', with and without `after'.
-module(plain_receive).
-export(['receive'/6, armed/1]).

-type environment() :: plain_tree:environment().
-type mode() :: plain_reach:mode().

-spec 'receive'([plain_tree:clause()], plain_tree:tree(), plain_tree:tree(), plain_tree:line(), environment(), mode()) -> plain_text:body().
'receive'(Written, Time, Action, Line, Env, Mode) ->
    Line > 0 andalso plain_state:put(line, Line),
    case {is_begun(Written), is_asked(Time), may_be_late(Written)} of
        {false, Asked, Late} when Asked; Late ->
            plain_body:body(again(Written, in_time(Written, Time), Action, {Asked, Late}, Line), Env, Mode);
        _ -> written(Written, Time, Action, Line, Env, Mode)
    end.

%% Whether it begins with such a clause already.
-spec is_begun([plain_tree:clause()]) -> boolean().
is_begun([{[{tup, [{lit, 'port@look', _} | _]}], _, _} | _]) -> true;
is_begun(Written) -> lists:any(fun({[Pattern], _, _}) -> is_late(Pattern) end, Written).

%% Where the program asks for mailboxes, a process that waits may be asked. The services are not, nor who only looks
%% for what is there.
-spec is_asked(plain_tree:tree()) -> boolean().
is_asked({lit, 0, _}) -> false;
is_asked(_) ->
    Module = plain_state:get(module),
    plain_state:get(asked) andalso Module =/= pf_mailbox andalso not lists:member(Module, plain_services:all()).

%% Where calls of servers may time out, an answer that comes later is dropped by the first receive that meets it.
-spec may_be_late([plain_tree:clause()]) -> boolean().
may_be_late(Written) ->
    lists:member('LATE_ANSWERS', plain_state:get(defines)) andalso not lists:member(plain_state:get(module), plain_services:all())
        andalso lists:any(fun({[Pattern], Guard, _}) -> not is_named(Pattern, Guard) andalso fits_late(Pattern) end, Written).

-spec is_late(plain_tree:tree()) -> boolean().
is_late({tup, [{tup, [{lit, 'port@late', _}, _]}, _]}) -> true;
is_late(_) -> false.

%% Whether a message, or its tag, is held against a value that the receive names: no such value is the tag of a late answer.
-spec is_named(plain_tree:tree(), plain_tree:tree()) -> boolean().
is_named({tup, [Tag | _]}, Guard) -> is_named(Tag, Guard);
is_named({v, _} = Variable, {call, {lit, erlang, _}, {lit, '=:=', _}, Sides, _}) -> lists:member(Variable, Sides);
is_named(_, _) -> false.

-spec fits_late(plain_tree:tree()) -> boolean().
fits_late({v, _}) -> true;
fits_late({alias, _, Pattern}) -> fits_late(Pattern);
fits_late({tup, [{v, _}, _]}) -> true;
fits_late({tup, [{alias, _, Pattern}, Value]}) -> fits_late({tup, [Pattern, Value]});
fits_late({tup, [{tup, [First, _]}, _]}) -> element(1, First) =/= lit;
fits_late(_) -> false.

%% A time that --never takes away from clauses.
-spec in_time([plain_tree:clause()], plain_tree:tree()) -> plain_tree:tree().
in_time([_ | _], {lit, T, Line} = Time) when is_integer(T) ->
    #{never := Never} = plain_state:get(options),
    case T >= Never of true -> {lit, infinity, Line}; false -> Time end;
in_time(_, Time) -> Time.

%% The receive as a function of its own, whose first clauses begin again: after an answer to who asks for the mailbox, and
%% where a late answer is dropped. A time goes on meanwhile.
-spec again([plain_tree:clause()], plain_tree:tree(), plain_tree:tree(), {boolean(), boolean()}, plain_tree:line()) ->
    plain_tree:tree().
again(Written, Time, Action, {Asked, Late}, Line) ->
    [{v, Again}, Reference, From, Question, Tag, Answer] = [{v, {'R', plain_state:fresh()}} || _ <- lists:seq(1, 6)],
    Begin = {apply, {lref, {Again, 0}}, [], Line},
    Look = {[{tup, [{lit, 'port@look', Line}, From, Question]}], {lit, true, Line},
            {'let', [], remote(pf_mailbox, show, [From, Question], Line), Begin}},
    Drop = {[{tup, [{tup, [{lit, 'port@late', Line}, Tag]}, Answer]}], {lit, true, Line}, Begin},
    First = [Look || Asked] ++ [Drop || Late],
    Recv = fun(Clauses) ->
        {letrec, [{{Again, 0}, [], {recv, First ++ Clauses, {lit, infinity, Line}, {lit, true, Line}, Line}, Line}], Begin}
    end,
    case Time of
        {lit, infinity, _} -> Recv(Written);
        _ ->
            Expired = {[{tup, [{lit, 'after', Line}, Reference]}], {lit, true, Line}, Action},
            {Set, Clear} = set(Time, Reference, Line),
            Flushed = [{Patterns, Guard, {'let', [], Clear, Body}} || {Patterns, Guard, Body} <- Written],
            {'let', [Reference], remote(erlang, make_ref, [], Line), {'let', [], Set, Recv([Expired | Flushed])}}
    end.

%% What sets a time, and what takes it back: the marker of the time 0 is in the mailbox at once.
-spec set(plain_tree:tree(), plain_tree:tree(), plain_tree:line()) -> {plain_tree:tree(), plain_tree:tree()}.
set({lit, 0, _}, Reference, Line) ->
    Marker = {tup, [{lit, 'after', Line}, Reference]},
    Me = {v, {'R', plain_state:fresh()}},
    {{'let', [Me], remote(erlang, self, [], Line), remote(erlang, '!', [Me, Marker], Line)},
     {recv, [{[Marker], {lit, true, Line}, {lit, ok, Line}}], {lit, infinity, Line}, {lit, true, Line}, Line}};
set(Time, Reference, Line) ->
    {remote(prim, arm, [Time, Reference], Line), remote(prim, flush, [Time, Reference], Line)}.

-spec remote(module(), atom(), [plain_tree:tree()], plain_tree:line()) -> plain_tree:tree().
remote(Module, Function, Arguments, Line) -> {call, {lit, Module, Line}, {lit, Function, Line}, Arguments, Line}.

%% @doc The setting of a time, whose end is the message `{'after', Reference}'.
-spec armed([plain_text:expression()]) -> plain_text:expression().
armed(TimeAndReference) ->
    plain_state:put(clock, true),
    plain_encodings:times(),
    [plain_reach:use(Part) || Part <- [arm, flush]],
    {call, 'arm@', TimeAndReference}.

-spec written([plain_tree:clause()], plain_tree:tree(), plain_tree:tree(), plain_tree:line(), environment(), mode()) -> plain_text:body().
written(Written, Time, Action, Line, Env, Mode) ->
    Clauses = plain_down:clauses(Written, Line),
    #{never := Never} = plain_state:get(options),
    Mark = plain_trace:marked([]), % before the clauses, which move the line on
    case Time of
        {lit, infinity, _} when Clauses =:= [] ->
            Reference = plain_names:new(),
            Made = {match, Reference, plain_trace:action(make_ref, [])},
            [Made | Mark ++ [{recv, [{Reference, [], [plain_body:returned({atom, ok}, Mode)]}]}]];
        {lit, infinity, _} -> Mark ++ [{recv, clauses(Clauses, [], Line, Env, Mode)}];
        {lit, T, _} when is_integer(T), T >= Never, Clauses =/= [] -> Mark ++ [{recv, clauses(Clauses, [], Line, Env, Mode)}];
        _ -> timed(Clauses, {Time, Action}, Mark, Line, Env, Mode)
    end.

%% A message of its own comes when the time is over: at once for the time 0, else by the clock.
-spec timed([plain_tree:clause()], {plain_tree:tree(), plain_tree:tree()}, plain_text:body(), plain_tree:line(), environment(), mode()) -> plain_text:body().
timed(Clauses, {Time, Action}, Mark, Line, Env, Mode) ->
    Reference = plain_names:variable({v, {'R', 0}}),
    Message = {tuple, [{atom, 'after'}, Reference]},
    Made = {match, Reference, plain_trace:action(make_ref, [])},
    {Set, Clear} = case Time of
        {lit, 0, _} -> {plain_trace:action('!', [{call, self, []}, Message]), plain_trace:marked([{recv, [{Message, [], [{atom, ok}]}]}])};
        _ ->
            Length = plain_value:value(Time, Env),
            {armed([Length, Reference]), [{call, 'flush@', [Length, Reference]}]}
    end,
    Expired = {Message, [], plain_body:body(Action, Env, Mode)},
    [Made | in_order(Set, Mark ++ [{recv, [Expired | clauses(Clauses, Clear, Line, Env, Mode)]}], Time, Mode)].

%% Where errors are caught, a time of the source that is none is one.
-spec in_order(plain_text:expression(), plain_text:body(), plain_tree:tree(), mode()) -> plain_text:body().
in_order({call, 'arm@', Arguments}, Waits, {v, _}, Mode) when Mode =/= plain ->
    case plain_state:get(kind) of
        user ->
            plain_reach:use(in_time),
            Refused = plain_names:new(),
            Bad = plain_body:failure(error, {atom, timeout_value}, Mode),
            [{'case', {call, 'time@', Arguments}, [{{atom, true}, [], Waits}, {Refused, [], [Bad]}]}];
        _ -> [{call, 'arm@', Arguments} | Waits]
    end;
in_order(Set, Waits, _, _) -> [Set | Waits].

%% A clause that pattern and guard of the profile don't decide takes all that fits its pattern without maps and guard. What then fits
%% neither it nor a later clause should have stayed in the mailbox: the process ends with {refused, 'receive', Line}.
-spec clauses([plain_tree:clause()], plain_text:body(), plain_tree:line(), environment(), mode()) -> [plain_text:clause()].
clauses([{[Pattern], Guard, Body} = Clause | Rest], Ahead, Line, Env, Mode) ->
    case plain_pattern:is_plain(Clause, Env) of
        true ->
            {[Written], Inside, Before, InGuard} = plain_pattern:patterns([Pattern], Env, [], {Guard, Body}),
            {ok, Tests} = plain_guard:guard(Guard, InGuard),
            [{Written, Tests, Ahead ++ Before ++ plain_body:body(Body, Inside, Mode)} | clauses(Rest, Ahead, Line, Env, Mode)];
        false -> [wide_clause(Clause, Rest, Ahead, Line, Env, Mode) | clauses(Rest, Ahead, Line, Env, Mode)]
    end;
clauses([], _, _, _, _) -> [].

-spec wide_clause(plain_tree:clause(), [plain_tree:clause()], plain_text:body(), plain_tree:line(), environment(), mode()) -> plain_text:clause().
wide_clause({[Pattern], _, _} = Clause, Rest, Ahead, Line, Env, Mode) ->
    Wide = plain_tree:renewed(element(1, plain_pattern:with_conditions(Pattern))),
    Message = {v, {'M', plain_state:fresh()}},
    {[Written], Inside, Before, _} = plain_pattern:patterns([{alias, Message, Wide}], Env, [], {none, Message}),
    Full = lists:any(fun({[Other], Guard, _}) -> plain_tree:is_true(Guard) andalso plain_tree:wider(Other, Wide) end, Rest),
    Full orelse plain_refusal:note("a message that this receive should leave in the mailbox ends the process with {refused,'receive',~w}; "
                                   "test it after the receive, or receive such messages by a clause of their own", [Line]),
    Last = {[{v, {'_', plain_state:fresh()}}], {lit, true, Line},
            {call, {lit, prim, Line}, {lit, raw, Line}, [{lit, exit, Line}, {lit, {refused, 'receive', Line}, Line}], Line}},
    {Written, [], Ahead ++ Before ++ plain_case:held([Message], [Clause | Rest] ++ [Last || not Full], Line, Inside, Mode)}.
