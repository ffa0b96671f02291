%% An account: a server that a folder has beside its scenarios.
-module(account).
-export([start/0, server/1, read/1, write/2]).

start() -> spawn(?MODULE, server, [0]).
read(A) -> A ! {read, self()}, receive {balance, N} -> N end.
write(A, N) -> A ! {write, N, self()}, receive written -> ok end.

server(N) ->
    receive
        {read, P} -> P ! {balance, N}, server(N);
        {write, M, P} -> P ! written, server(M)
    end.
