-module(m).
-export([main/0]).
main() -> {A, B} = pair(1), [H | T] = list(3), C = D = {A, B}, {_, [C | _]} = {T, [D]}, X = T,
  {A, Y} = {1, X}, {Y, H, list(A)}, [] = list(0), "text", {C, H}.
pair(N) -> {N, [N]}.
list(0) -> [];
list(N) -> [N | list(N - 1)].
