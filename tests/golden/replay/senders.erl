-module(senders).
-export([main/0, say/2]).
main() -> S = self(), spawn(senders, say, [S, left]), spawn(senders, say, [S, right]),
  spawn(senders, say, [S, middle]), [take(), take(), take()].
say(P, Word) -> P ! Word.
take() -> receive M -> M end.
