-module(locks).
-export([main/0, lock/0, both/3]).
main() -> L = spawn(locks, lock, []), K = spawn(locks, lock, []),
  spawn(locks, both, [self(), L, K]), spawn(locks, both, [self(), K, L]),
  receive done -> receive done -> ok end end.
lock() -> receive {take, P} -> P ! {given, self()}, receive {back, P} -> lock() end end.
both(P, A, B) -> A ! {take, self()}, receive {given, A} -> ok end,
  B ! {take, self()}, receive {given, B} -> ok end,
  A ! {back, self()}, B ! {back, self()}, P ! done.
