-module(m).
-export([main/0, f/1]).
main() -> {P, R} = spawn_monitor(?MODULE, f, [self()]), P ! {go, self()}, receive {'DOWN', R, process, P, Why} -> {Why, flush(0)} end.
f(P) -> receive {go, P} -> P ! {a, [P]}, P ! {b, self()}, exit({done, 1}) end.
flush(N) -> case N of 2 -> N; _ -> receive {_, _} -> flush(N + 1) end end.
