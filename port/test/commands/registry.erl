%% A server in two modules: this one has the clients.
-module(registry).
-export([main/0, other/0]).

main() ->
    {ok, _} = registry_server:start_link(),
    Me = self(),
    [spawn_link(fun() -> Me ! {self(), registry_server:take(name)} end) || _ <- [1, 2]],
    Answers = [receive {_, Answer} -> Answer end || _ <- [1, 2]],
    [taken, yours] = lists:sort(Answers).

other() -> fine.
