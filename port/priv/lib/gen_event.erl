%% An event manager after OTP 25: its handlers, what they are given and asked, their ends, and others in their place;
%% without hibernation and code change.
-module(gen_event).
-compile([export_all, nowarn_export_all]).

-spec start() -> term().
start() -> started(nolink, none).

-spec start(term()) -> term().
start(Name) -> started(nolink, Name).

-spec start(term(), list()) -> term().
start(Name, _) -> started(nolink, Name).

-spec start_link() -> term().
start_link() -> started(link, none).

-spec start_link(term()) -> term().
start_link(Name) -> started(link, Name).

-spec start_link(term(), list()) -> term().
start_link(Name, _) -> started(link, Name).

-spec started(link | nolink, term()) -> term().
started(Link, Name) when is_tuple(Name); Name =:= none -> gen_server:start_(Link, Name, ?MODULE, [], []);
started(Link, _) -> gen_server:start_(Link, none, ?MODULE, [], []).

-spec add_handler(term(), term(), term()) -> term().
add_handler(M, H, Args) -> rpc(M, {'$handler', add, H, Args, none}).

-spec rpc(term(), term()) -> term().
rpc(M, Request) -> {ok, V} = gen:call(M, '$gen_call', Request, infinity), V.

-spec add_sup_handler(term(), term(), term()) -> term().
add_sup_handler(M, H, Args) -> rpc(M, {'$handler', add, H, Args, self()}).

-spec delete_handler(term(), term(), term()) -> term().
delete_handler(M, H, Args) -> rpc(M, {'$handler', delete, H, Args, none}).

-spec swap_handler(term(), term(), term()) -> term().
swap_handler(M, {H, Args}, {New, NewArgs}) -> rpc(M, {'$swap', H, Args, New, NewArgs, none}).

-spec swap_sup_handler(term(), term(), term()) -> term().
swap_sup_handler(M, {H, Args}, {New, NewArgs}) -> rpc(M, {'$swap', H, Args, New, NewArgs, self()}).

-spec which_handlers(term()) -> term().
which_handlers(M) -> rpc(M, '$handlers').

-spec notify(term(), term()) -> ok.
notify(M, Event) when is_atom(M) -> case whereis(M) of undefined -> error(badarg); P -> notify(P, Event) end;
notify(M, Event) -> gen_server:cast(M, {'$event', Event}).

-spec sync_notify(term(), term()) -> ok.
sync_notify(M, Event) -> rpc(M, {'$event', Event}).

-spec call(term(), term(), term()) -> term().
call(M, H, Request) -> gen_server:ask(M, {'$ask', H, Request}, {?MODULE, call, [M, H, Request]}).

-spec call(term(), term(), term(), term()) -> term().
call(M, H, Request, T) -> gen_server:ask(M, {'$ask', H, Request}, T, {?MODULE, call, [M, H, Request, T]}).

-spec start_monitor() -> term().
start_monitor() -> gen_server:start_monitor(?MODULE, [], []).

-spec start_monitor(term()) -> term().
start_monitor(Name) when is_tuple(Name) -> gen_server:start_monitor(Name, ?MODULE, [], []);
start_monitor(_) -> start_monitor().

-spec start_monitor(term(), list()) -> term().
start_monitor(Name, _) -> start_monitor(Name).

%% requests that are answered later
-spec send_request(term(), term(), term()) -> reference().
send_request(M, H, Request) -> gen:send_request(M, '$gen_call', {'$ask', H, Request}).

-spec send_request(term(), term(), term(), term(), list()) -> list().
send_request(M, H, Request, Label, Requests) -> gen:send_request(M, '$gen_call', {'$ask', H, Request}, Label, Requests).

-spec wait_response(reference(), term()) -> term().
wait_response(R, T) -> answer(gen:wait_response(R, T)).

-spec wait_response(list(), term(), boolean()) -> term().
wait_response(Requests, T, Delete) -> answers(gen:wait_response(Requests, T, Delete)).

-spec receive_response(reference(), term()) -> term().
receive_response(R, T) -> answer(gen:receive_response(R, T)).

-spec receive_response(list(), term(), boolean()) -> term().
receive_response(Requests, T, Delete) -> answers(gen:receive_response(Requests, T, Delete)).

-spec check_response(term(), reference()) -> term().
check_response(Message, R) -> answer(gen:check_response(Message, R)).

-spec check_response(term(), list(), boolean()) -> term().
check_response(Message, Requests, Delete) -> answers(gen:check_response(Message, Requests, Delete)).

-spec answers(term()) -> term().
answers({Answer, Label, Requests}) -> {answer(Answer), Label, Requests};
answers(Other) -> Other.

%% an error of the manager is the answer
-spec answer(term()) -> term().
answer({reply, {error, bad_module}}) -> {error, bad_module};
answer({reply, {error, {'EXIT', Why}}}) -> {error, {'EXIT', Why}};
answer(Answer) -> Answer.

-spec reqids_new() -> list().
reqids_new() -> gen:reqids_new().

-spec reqids_size(list()) -> non_neg_integer().
reqids_size(Requests) -> gen:reqids_size(Requests).

-spec reqids_add(reference(), term(), list()) -> list().
reqids_add(R, Label, Requests) -> gen:reqids_add(R, Label, Requests).

-spec reqids_to_list(list()) -> list().
reqids_to_list(Requests) -> gen:reqids_to_list(Requests).

-spec stop(term()) -> ok.
stop(M) -> gen_server:stop(M).

-spec stop(term(), term(), term()) -> ok.
stop(M, Reason, T) -> gen_server:stop(M, Reason, T).

%% the state: {Handler, Id, State, Supervisor} for each, the last added first
-spec init(term()) -> term().
init(_) -> process_flag(trap_exit, true), {ok, []}.

-spec handle_call(term(), term(), list()) -> term().
handle_call({'$handler', add, H, Args, Sup}, _, Hs) ->
    {Mod, Id} = named(H),
    case catch Mod:init(Args) of
        {ok, S} -> supervise(Sup), {reply, ok, [{Mod, Id, S, Sup} | Hs]};
        {ok, S, hibernate} -> supervise(Sup), {reply, ok, [{Mod, Id, S, Sup} | Hs]};
        Else -> {reply, Else, Hs}
    end;
handle_call({'$handler', delete, H, Args, _}, _, Hs) ->
    {Mod, Id} = named(H),
    case found(Mod, Id, Hs) of
        false -> {reply, {error, module_not_found}, Hs};
        {_, _, S, Sup} = F ->
            Answer = ended(Mod, Args, S),
            gone(Sup, H, normal),
            {reply, Answer, lists:delete(F, Hs)}
    end;
handle_call({'$swap', H, Args, New, NewArgs, Sup}, _, Hs) ->
    {Mod, Id} = named(H),
    {Answer, Left} = swapped(found(Mod, Id, Hs), Args, New, NewArgs, Sup, Hs),
    {reply, Answer, Left};
handle_call('$handlers', _, Hs) -> {reply, [case Id of none -> Mod; _ -> {Mod, Id} end || {Mod, Id, _, _} <- Hs], Hs};
handle_call({'$event', Event}, _, Hs) -> {reply, ok, each(fun(Mod, S) -> Mod:handle_event(Event, S) end, Hs)};
handle_call({'$ask', H, Request}, _, Hs) ->
    {Mod, Id} = named(H),
    case found(Mod, Id, Hs) of
        false -> {reply, {error, bad_module}, Hs};
        {_, _, S, Sup} = F ->
            case catch Mod:handle_call(Request, S) of
                {ok, Answer, S2} -> {reply, Answer, [case X of F -> {Mod, Id, S2, Sup}; _ -> X end || X <- Hs]};
                {ok, Answer, S2, hibernate} -> {reply, Answer, [case X of F -> {Mod, Id, S2, Sup}; _ -> X end || X <- Hs]};
                {remove_handler, Answer} -> _ = ended(Mod, remove_handler, S), gone(Sup, H, normal), {reply, Answer, lists:delete(F, Hs)};
                {swap_handler, Answer, Args, S2, New, NewArgs} ->
                    {_, Left} = swapped({Mod, Id, S2, Sup}, Args, New, NewArgs, none, [case X of F -> {Mod, Id, S2, Sup}; _ -> X end || X <- Hs]),
                    {reply, Answer, Left};
                {'EXIT', Why} -> _ = ended(Mod, {error, {'EXIT', Why}}, S), gone(Sup, H, {'EXIT', Why}), {reply, {error, {'EXIT', Why}}, lists:delete(F, Hs)};
                Else -> _ = ended(Mod, {error, Else}, S), gone(Sup, H, Else), {reply, {error, Else}, lists:delete(F, Hs)}
            end
    end.

-spec handle_cast(term(), list()) -> term().
handle_cast({'$event', Event}, Hs) -> {noreply, each(fun(Mod, S) -> Mod:handle_event(Event, S) end, Hs)}.

-spec handle_info(term(), list()) -> term().
handle_info({'EXIT', P, Why}, Hs) ->
    {Left, Own} = lists:partition(fun({_, _, _, Sup}) -> Sup =/= P end, Hs),
    case Own of
        [] -> {noreply, each(fun(Mod, S) -> given(Mod, {'EXIT', P, Why}, S) end, Hs)};
        _ -> [ended(Mod, {stop, Why}, S) || {Mod, _, S, _} <- Own], {noreply, Left}
    end;
handle_info(Message, Hs) -> {noreply, each(fun(Mod, S) -> given(Mod, Message, S) end, Hs)}.

-spec terminate(term(), list()) -> ok.
terminate(_, Hs) -> [begin _ = ended(Mod, stop, S), gone(Sup, case Id of none -> Mod; _ -> {Mod, Id} end, shutdown) end || {Mod, Id, S, Sup} <- Hs], ok.

%% a handler in the place of another, which hands what its end returns on; who supervised that one supervises the new one
-spec swapped(term(), term(), term(), term(), term(), list()) -> {term(), list()}.
swapped(false, _, New, NewArgs, Sup, Hs) -> instead(New, {NewArgs, error}, Sup, Hs);
swapped({Mod, Id, S, Before} = Old, Args, New, NewArgs, Sup, Hs) ->
    Handed = ended(Mod, Args, S),
    Next = case Sup of none -> Before; _ -> Sup end,
    reported(Before, case Id of none -> Mod; _ -> {Mod, Id} end, {swapped, New, case Next of none -> false; _ -> Next end}),
    instead(New, {NewArgs, Handed}, Next, lists:delete(Old, Hs)).

-spec reported(term(), term(), term()) -> term().
reported(none, _, _) -> ok;
reported(P, H, Why) -> P ! {gen_event_EXIT, H, Why}.

-spec instead(term(), term(), term(), list()) -> {term(), list()}.
instead(New, Args, Sup, Hs) ->
    {Mod, Id} = named(New),
    case catch Mod:init(Args) of
        {ok, S} -> supervise(Sup), {ok, [{Mod, Id, S, Sup} | Hs]};
        {ok, S, hibernate} -> supervise(Sup), {ok, [{Mod, Id, S, Sup} | Hs]};
        Else -> {{error, Else}, Hs}
    end.

-spec given(module(), term(), term()) -> term().
given(Mod, Message, S) -> case erlang:function_exported(Mod, handle_info, 2) of true -> Mod:handle_info(Message, S); false -> {ok, S} end.

-spec named(term()) -> {module(), term()}.
named({Mod, Id}) -> {Mod, Id};
named(Mod) -> {Mod, none}.

-spec found(module(), term(), list()) -> term().
found(Mod, Id, [{Mod, Id, _, _} = H | _]) -> H;
found(Mod, Id, [_ | Hs]) -> found(Mod, Id, Hs);
found(_, _, []) -> false.

-spec supervise(term()) -> term().
supervise(none) -> true;
supervise(P) -> link(P).

-spec gone(term(), term(), term()) -> ok.
gone(none, _, _) -> ok;
gone(P, H, Why) -> unlink(P), P ! {gen_event_EXIT, H, Why}, ok.

-spec ended(module(), term(), term()) -> term().
ended(Mod, Args, S) -> case erlang:function_exported(Mod, terminate, 2) of true -> catch Mod:terminate(Args, S); false -> ok end.

%% what each handler makes of an event; one that fails is taken out
-spec each(fun((module(), term()) -> term()), list()) -> list().
each(_, []) -> [];
each(F, [{Mod, Id, S, Sup} | Hs]) ->
    H = case Id of none -> Mod; _ -> {Mod, Id} end,
    case catch F(Mod, S) of
        {ok, S2} -> [{Mod, Id, S2, Sup} | each(F, Hs)];
        {ok, S2, hibernate} -> [{Mod, Id, S2, Sup} | each(F, Hs)];
        remove_handler -> _ = ended(Mod, remove_handler, S), gone(Sup, H, normal), each(F, Hs);
        {swap_handler, Args, S2, New, NewArgs} ->
            {_, Own} = swapped({Mod, Id, S2, Sup}, Args, New, NewArgs, none, [{Mod, Id, S2, Sup}]),
            Own ++ each(F, Hs);
        {'EXIT', Why} -> _ = ended(Mod, {error, {'EXIT', Why}}, S), gone(Sup, H, {'EXIT', Why}), each(F, Hs);
        Else -> _ = ended(Mod, {error, Else}, S), gone(Sup, H, Else), each(F, Hs)
    end.
