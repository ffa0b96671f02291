%% Calls of functions on nodes, of which there is one: others are down.
-module(rpc).
-compile([export_all, nowarn_export_all]).

-spec call(term(), module(), atom(), list()) -> term().
call(Node, M, F, As) -> call(Node, M, F, As, infinity).

-spec call(term(), module(), atom(), list(), term()) -> term().
call(Node, M, F, As, infinity) when Node =:= node() -> result(M, F, As);
call(Node, M, F, As, T) when Node =:= node() ->
    {P, R} = spawn_monitor(fun() -> exit({result, result(M, F, As)}) end),
    receive
        {'DOWN', R, process, P, {result, V}} -> V;
        {'DOWN', R, process, P, Why} -> {badrpc, {'EXIT', Why}}
    after T -> demonitor(R, [flush]), {badrpc, timeout}
    end;
call(_, _, _, _, _) -> {badrpc, nodedown}.

-spec result(module(), atom(), list()) -> term().
result(M, F, As) ->
    try apply(M, F, As)
    catch
        throw:V -> V;
        exit:Why -> {badrpc, {'EXIT', Why}};
        error:Why:Stack -> {badrpc, {'EXIT', {Why, Stack}}}
    end.

-spec block_call(term(), module(), atom(), list()) -> term().
block_call(Node, M, F, As) -> call(Node, M, F, As).

-spec block_call(term(), module(), atom(), list(), term()) -> term().
block_call(Node, M, F, As, T) -> call(Node, M, F, As, T).

-spec cast(term(), module(), atom(), list()) -> true.
cast(Node, M, F, As) when Node =:= node() -> spawn(fun() -> apply(M, F, As) end), true;
cast(_, _, _, _) -> true.

-spec multicall(module(), atom(), list()) -> {list(), list()}.
multicall(M, F, As) -> multicall([node()], M, F, As).

-spec multicall(term(), term(), term(), term()) -> {list(), list()}.
multicall(Nodes, M, F, As) when is_list(Nodes) -> multicall(Nodes, M, F, As, infinity);
multicall(M, F, As, T) -> multicall([node()], M, F, As, T).

-spec multicall(list(), module(), atom(), list(), term()) -> {list(), list()}.
multicall(Nodes, M, F, As, T) ->
    {[call(Node, M, F, As, T) || Node <- Nodes, Node =:= node()], [Node || Node <- Nodes, Node =/= node()]}.

-spec eval_everywhere(module(), atom(), list()) -> abcast.
eval_everywhere(M, F, As) -> cast(node(), M, F, As), abcast.

-spec abcast(atom(), term()) -> abcast.
abcast(Name, Message) -> abcast([node()], Name, Message).

-spec abcast(list(), atom(), term()) -> abcast.
abcast(Nodes, Name, Message) ->
    [case whereis(Name) of undefined -> ok; P -> P ! Message end || Node <- Nodes, Node =:= node()],
    abcast.
