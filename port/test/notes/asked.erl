-module(asked).
-export([main/0]).
main() ->
    P = spawn(fun() -> ok end),
    _ = process_info(P, status),
    _ = erlang:localtime(),
    asked:hidden().
hidden() -> ok.
%% note: 5: process_info of another process is answered where nobody else can go, and then who lives waits
%% note: 6: a run begins with the year 1970, and its place has the time of UTC
%% note: 6: time is virtual: it passes only where nobody else can go, in the order of the deadlines; --patience early has it pass at any moment
%% note: 7: asked:hidden/0 isn't exported, so this call raises undef
