-module(links).
-export([main/0, first/1, second/0]).
main() -> process_flag(trap_exit, true), A = spawn_link(links, first, [self()]), B = spawn_link(links, second, []),
  exit(B, stop), receive {'EXIT', P, R} -> receive {'EXIT', Q, S} -> {P == A, R, Q == B, S} end end.
first(P) -> P ! hello, exit(done).
second() -> process_flag(trap_exit, true), receive {'EXIT', _, R} -> exit({told, R}) end.
