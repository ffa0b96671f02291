-module(rare).
-export([main/0, sender/2]).

%% Seven senders are heard in one certain order by few seeds alone.
main() -> spawned(7), heard([], 7).

spawned(0) -> ok;
spawned(N) -> spawn(rare, sender, [self(), N]), spawned(N - 1).

sender(To, N) -> To ! N.

heard(Ns, 0) -> Ns =/= [4, 1, 7, 2, 6, 3, 5];
heard(Ns, N) -> receive M -> heard([M | Ns], N - 1) end.
