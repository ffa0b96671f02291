-module(m).
-export([main/0, counter/1, asks/1]).

main() ->
  C = spawn(m, counter, [0]),
  spawn(m, asks, [C]),
  receive
    done -> ok
  end.

counter(N) ->
  receive
    {add, M} -> counter(N + M);
    {get, P} -> P ! {count, N}, counter(N)
  end.

asks(C) ->
  C ! {add, 1}, C ! {get, self()},
  receive {count, 2} -> C end.
