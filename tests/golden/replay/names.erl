-module(names).
-export([main/0, server/1, ask/1]).
main() -> spawn(names, server, [0]), spawn(names, ask, [self()]), spawn(names, ask, [self()]),
  receive {got, A} -> receive {got, B} -> {A, B} end end.
server(N) -> register(server, self()), serve(N).
serve(N) -> receive {next, P} -> P ! {answer, N}, serve(N + 1) end.
ask(P) -> case whereis(server) of
    undefined -> P ! {got, nothing};
    S -> S ! {next, self()}, receive {answer, N} -> P ! {got, N} end
  end.
