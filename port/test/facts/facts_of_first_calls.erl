%% What a process of proc_lib began with, where that is a fun: each is the same on erl and in every run of the tool.
-module(facts_of_first_calls).
-export([main/0, asked/0]).

asked() -> receive {tell, P} -> P ! {self(), get('$initial_call')}, asked() end.

begun(Ps) ->
    [{proc_lib:initial_call(P), proc_lib:translate_initial_call(P), begin P ! {tell, self()}, receive {P, I} -> I end end} || P <- Ps].

main() ->
    X = 3,
    A = proc_lib:spawn(fun() -> asked(), X end),
    B = proc_lib:spawn_link(fun asked/0),
    C = proc_lib:spawn(fun ?MODULE:asked/0),
    Ds = [proc_lib:spawn(fun() -> asked(), N end) || N <- [1, 2]],
    F = case X of 3 -> fun() -> asked() end; _ -> fun asked/0 end,
    {E, _} = proc_lib:spawn_opt(F, [monitor]),
    G = proc_lib:spawn_opt(fun() -> Inner = fun() -> asked() end, Inner() end, [link]),
    H = proc_lib:spawn(?MODULE, asked, []),
    [P ! {tell, self()} || P <- [A, B, C, E, G, H | Ds]],
    First = [receive {P, I} -> I end || P <- [A, B, C, E, G, H | Ds]],
    [First, begun([A, B, C, E, G, H | Ds]), inner(A), with_names(X)].

%% funs that call themselves
with_names(X) ->
    F = fun Again() -> receive {tell, P} -> P ! {self(), get('$initial_call')}, Again(); X -> ok end end,
    G = proc_lib:spawn(fun Loop() -> asked(), Loop() end),
    Ps = [proc_lib:spawn(F), proc_lib:spawn_link(F), G, proc_lib:spawn(fun() -> F() end)],
    [P ! {tell, self()} || P <- Ps],
    [[receive {P, I} -> I end || P <- Ps], begun(Ps)].

inner(A) ->
    Me = self(),
    P = proc_lib:spawn(fun() -> Q = proc_lib:spawn(fun() -> asked() end), Q ! {tell, self()}, receive {Q, I} -> Me ! {inner, I, hd(get('$ancestors')) =:= Me} end end),
    receive {inner, I, Above} -> [I, Above, is_pid(P), proc_lib:initial_call([{dictionary, [{'$initial_call', {m, f, 2}}]}]), proc_lib:translate_initial_call([]), proc_lib:initial_call([]), is_pid(A)] end.
