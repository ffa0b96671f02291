%% A process registry on ets, in which names are freed when their processes end.
-module(procreg).
-behaviour(gen_server).
-export([main/0, reg/2, where/1, unreg/1, init/1, handle_call/3, handle_cast/2, handle_info/2]).

start_link() -> gen_server:start_link({local, ?MODULE}, ?MODULE, [], []).
where(Name) ->
    case ets:lookup(?MODULE, {reg, Name}) of
        [{_, Pid, _}] -> Pid;
        [] -> undefined
    end.
-ifdef(FIXED).
reg(Name, Pid) ->
    case where(Name) of
        undefined -> gen_server:call(?MODULE, {reg, Name, Pid});
        _ -> {error, taken}
    end.
-else.
%% the table is written by the client itself; the server is only informed of it
reg(Name, Pid) ->
    case where(Name) of
        undefined ->
            ets:insert(?MODULE, {{reg, Name}, Pid, none}),
            gen_server:cast(?MODULE, {monitor, Name, Pid}),
            ok;
        _ -> {error, taken}
    end.
-endif.
unreg(Name) -> gen_server:call(?MODULE, {unreg, Name}).

init([]) ->
    ets:new(?MODULE, [named_table, public, set, {read_concurrency, true}]),
    {ok, #{}}.
handle_call({reg, Name, Pid}, _From, Mons) ->
    case ets:insert_new(?MODULE, {{reg, Name}, Pid, none}) of
        true -> {reply, ok, Mons#{monitor(process, Pid) => Name}};
        false -> {reply, {error, taken}, Mons}
    end;
handle_call({unreg, Name}, _From, Mons) -> {reply, ets:delete(?MODULE, {reg, Name}), Mons}.
handle_cast({monitor, Name, Pid}, Mons) -> {noreply, Mons#{monitor(process, Pid) => Name}}.
handle_info({'DOWN', Ref, process, _, _}, Mons) ->
    {Name, Rest} = maps:take(Ref, Mons),
    ets:delete(?MODULE, {reg, Name}),
    {noreply, Rest}.

main() ->
    {ok, _} = start_link(),
    Me = self(),
    Ps = [spawn_link(fun() -> Me ! {self(), reg(worker, self())}, receive stop -> ok end end) || _ <- [1, 2]],
    Rs = [receive {P, R} -> R end || P <- Ps],
    Owner = where(worker),
    true = lists:member(Owner, Ps),
    [P ! stop || P <- Ps],
    case lists:sort(Rs) of
        [ok, {error, taken}] -> one;
        [ok, ok] -> error(both_registered)
    end.
%% reported: crash <0> at procreg\.erl:56 procreg:main/0: error both_registered
