%% Calls of functions on nodes, of which there is one: others can't be connected to.
-module(erpc).
-compile([export_all, nowarn_export_all]).

-spec call(term(), fun(() -> term())) -> term().
call(Node, F) -> called(Node, F, infinity).

-spec call(term(), fun(() -> term()), term()) -> term().
call(Node, F, T) -> called(Node, F, T).

-spec call(term(), module(), atom(), list()) -> term().
call(Node, M, F, As) -> called(Node, fun() -> apply(M, F, As) end, infinity).

-spec call(term(), module(), atom(), list(), term()) -> term().
call(Node, M, F, As, T) -> called(Node, fun() -> apply(M, F, As) end, T).

-spec called(term(), fun(() -> term()), term()) -> term().
called(Node, F, infinity) when Node =:= node() -> given(result(F));
called(Node, F, T) when Node =:= node() ->
    {P, R} = spawn_monitor(fun() -> exit({result, result(F)}) end),
    receive
        {'DOWN', R, process, P, {result, V}} -> given(V);
        {'DOWN', R, process, P, Why} -> exit({signal, Why})
    after T -> demonitor(R, [flush]), error({erpc, timeout})
    end;
called(_, _, _) -> error({erpc, noconnection}).

-spec result(fun(() -> term())) -> term().
result(F) -> try {ok, F()} catch Class:Why:Stack -> {Class, Why, Stack} end.

-spec given(term()) -> term().
given({ok, V}) -> V;
given({throw, V, _}) -> throw(V);
given({exit, Why, _}) -> exit({exception, Why});
given({error, Why, Stack}) -> error({exception, Why, Stack}).

-spec cast(term(), fun(() -> term())) -> ok.
cast(Node, F) when Node =:= node() -> spawn(F), ok;
cast(_, _) -> ok.

-spec cast(term(), module(), atom(), list()) -> ok.
cast(Node, M, F, As) when Node =:= node() -> spawn(fun() -> apply(M, F, As) end), ok;
cast(_, _, _, _) -> ok.
