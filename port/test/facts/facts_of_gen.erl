%% What behaviours of one's own are made of, and what OTP keeps of who started a process: each is the same on erl and in every run of the tool.
-module(facts_of_gen).
-export([main/0, init_it/6, whereis_name/1, register_name/2, unregister_name/1, init/1, handle_call/3, handle_cast/2, handle_info/2]).
tried(F) -> try {ok, F()} catch C:R -> {C, tidy(R)} end.
tidy({R, [{_,_,_,_}|_]}) -> {R, st};
tidy({R, []}) -> {R, st};
tidy(R) -> R.
init(slow) -> receive go -> {ok, x} end;
init(X) -> {ok, X}.
handle_call(anc, _, S) -> {reply, {length(get('$ancestors')), get('$initial_call')}, S};
handle_call(parent, _, S) -> {reply, hd(get('$ancestors')), S}.
handle_cast(_, S) -> {noreply, S}.
handle_info(_, S) -> {noreply, S}.
whereis_name(N) -> whereis(N).
register_name(N, P) -> try register(N, P) of true -> yes catch error:_ -> no end.
unregister_name(N) -> unregister(N).
init_it(Starter, Parent, Name, Mod, Args, Opts) ->
    case Args of
        fail -> proc_lib:init_ack(Starter, {error, failed}), exit(normal);
        crash -> exit(crashed);
        slow -> receive go -> ok end;
        _ -> proc_lib:init_ack(Starter, {ok, self()}), loop(Parent, Name, Mod, Opts)
    end.
loop(Parent, Name, Mod, Opts) ->
    receive
        {'$my', From, parent} -> gen:reply(From, Parent =:= self orelse is_pid(Parent)), loop(Parent, Name, Mod, Opts);
        {'$my', From, name} -> gen:reply(From, case Name of P when is_pid(P) -> P =:= self(); _ -> {gen:name(Name), tried(fun() -> gen:get_proc_name(Name) end), tried(fun() -> gen:get_proc_name({local, zzz}) end)} end), loop(Parent, Name, Mod, Opts);
        {'$my', From, opts} -> gen:reply(From, {gen:hibernate_after(Opts), gen:debug_options(x, Opts)}), loop(Parent, Name, Mod, Opts);
        {'$my', From, up} -> gen:reply(From, is_pid(gen:get_parent())), loop(Parent, Name, Mod, Opts);
        {'$my', _, die} -> exit(died);
        {'$my', _, none} -> loop(Parent, Name, Mod, Opts);
        {system, From, {terminate, R}} -> gen:reply(From, ok), gen:unregister_name(Name), exit(R)
    end.
main() ->
    process_flag(trap_exit, true),
    Me = self(),
    {ok, A} = gen:start(?MODULE, link, cb, a, []),
    {ok, B} = gen:start(?MODULE, nolink, {local, facts_gen_b}, cb, a, [{hibernate_after, 5}]),
    {ok, {C, MC}} = gen:start(?MODULE, monitor, {global, facts_gen_c}, cb, a, []),
    {ok, D} = gen:start(?MODULE, link, {via, ?MODULE, facts_gen_d}, cb, a, [{timeout, 1000}, {spawn_opt, [{priority, low}]}]),
    S1 = [gen:start(?MODULE, L, {local, facts_gen_b}, cb, a, []) =:= {error, {already_started, B}} || L <- [link, nolink, monitor]],
    S2 = [gen:start(?MODULE, L, cb, X, []) || L <- [link, nolink, monitor], X <- [fail, crash]],
    S3 = [gen:start(?MODULE, L, cb, slow, [{timeout, 10}]) || L <- [link, nolink, monitor]],
    S4 = [gen:call(P, '$my', Q) || P <- [A, facts_gen_b, {global, facts_gen_c}, {via, ?MODULE, facts_gen_d}, {facts_gen_b, node()}], Q <- [parent, up]],
    S5 = [gen:call(P, '$my', name, 1000) || P <- [A, B, C, D]] ++ [gen:call(P, '$my', opts, infinity) || P <- [A, B]],
    S6 = [tried(fun() -> gen:call(P, '$my', none, 10) end) || P <- [nobody, {global, nobody}, {via, ?MODULE, nobody}, {facts_gen_b, other@nohost}, A, Me]] ++ [tried(fun() -> gen:call(A, '$my', x, T) end) || T <- [-1, x]],
    S7 = [tried(fun() -> gen:call(A, '$my', die) end), receive {'EXIT', A, W} -> W end],
    R1 = gen:send_request(facts_gen_b, '$my', parent),
    S8 = gen:wait_response(R1, 1000),
    S9 = [tried(fun() -> gen:stop(X) end) || X <- [facts_gen_b, nobody, {global, nobody}]] ++ [tried(fun() -> gen:stop(C, why, 1000) end), receive {'DOWN', MC, _, _, V} -> V end, tried(fun() -> gen:stop(D, x, -1) end), gen:stop(D)],
    S10 = [receive {'EXIT', D, X} -> X end, whereis(facts_gen_b), whereis(facts_gen_d), global:whereis_name(facts_gen_c)],
    S11 = [gen:format_status_header("Status for", n), gen:format_status_header("Status for", {n, 1})] ++ [gen:name({local, a}), tried(fun() -> gen:name(x) end), gen:unregister_name({local, nobody}), gen:unregister_name(self())],
    register(facts_gen_me, self()),
    {ok, G} = gen_server:start_link(?MODULE, g, []),
    {ok, H} = gen_server:start({local, facts_gen_h}, ?MODULE, h, [{timeout, 100}]),
    S12 = [gen_server:call(G, anc), gen_server:call(H, anc), gen_server:call(G, parent), proc_lib:initial_call(G), proc_lib:translate_initial_call(H), proc_lib:initial_call(self()), proc_lib:translate_initial_call(self()), lists:sort([K || {K, _} <- element(2, process_info(G, dictionary))])],
    S13 = [gen_server:start_link(?MODULE, slow, [{timeout, 10}]), gen_server:start(?MODULE, slow, [{timeout, 10}]), tried(fun() -> gen_server:stop(H, normal, 50) end), tried(fun() -> gen_server:stop(H) end)],
    S14 = [tried(fun() -> gen:get_parent() end)],
    [S1, S2, S3, S4, S5, S6, S7, S8, S9, S10, S11, S12, S13, S14].
