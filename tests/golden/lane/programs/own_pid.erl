-module(m).
-export([main/0]).
main() -> P = self(), Q = f(self(), 1 + 2), R = {self(), [self() | [P]], g()},
  self() ! {Q, R}, receive {A, {B, C, D}} -> {A, B == P, C, D, self()} end.
f(P, N) -> {P, N, self()}.
g() -> self().
