%% 'DOWN' of a monitor by name has the name; of a pid it has the pid; each is left in the mailbox where nothing asks for it.
-module(down_by_name).
-behaviour(gen_server).
-export([main/0, init/1, handle_call/3, handle_cast/2, handle_info/2]).

init(Names) -> {ok, [{N, monitor(process, N)} || N <- Names]}.
handle_call(seen, _From, Seen) -> {reply, Seen, Seen}.
handle_cast(_, Seen) -> {noreply, Seen}.
handle_info({'DOWN', R, process, {Name, Node}, Why}, Seen) -> {noreply, [{down, Name, Node =:= node(), Why, lists:member({Name, R}, Seen)} | Seen]};
handle_info(Other, Seen) -> {noreply, [Other | Seen]}.

main() ->
    P = started(one),
    Q = started(two),
    R = monitor(process, one),
    S = monitor(process, P),
    T = monitor(process, {two, node()}),
    U = monitor(process, nobody),
    {ok, Server} = gen_server:start_link(?MODULE, [one, two], []),
    P ! stop,
    A = receive {'DOWN', S, process, Pid, normal} -> Pid =:= P end,
    B = receive {'DOWN', R, process, Object, normal} -> Object end,
    Q ! stop,
    C = receive {'DOWN', T, process, {two, _}, Why} -> Why end,
    D = receive {'DOWN', U, process, {nobody, _}, None} -> None end,
    {A, B, C, D, lists:sort([{N, W, Same, Known} || {down, N, Same, W, Known} <- seen(Server, 2)])}.

started(Name) ->
    P = spawn(fun() -> receive stop -> ok end end),
    register(Name, P),
    P.

seen(Server, Number) ->
    Seen = gen_server:call(Server, seen),
    case length([x || {down, _, _, _, _} <- Seen]) of
        Number -> Seen;
        _ -> seen(Server, Number)
    end.
