-module(monitors).
-export([main/0, worker/1]).
main() -> A = spawn(monitors, worker, [self()]), B = spawn(monitors, worker, [self()]),
  M = monitor(process, A), N = monitor(process, B), exit(A, kill), demonitor(N),
  receive {'DOWN', M, process, A, R} -> {R, left(0)} end.
left(N) -> self() ! last, count(N).
count(N) -> receive last -> N; word -> count(N + 1) end.
worker(P) -> P ! word, receive go -> P ! word end.
