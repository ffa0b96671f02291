-module(m).
-export([main/0]).
main() -> f(a).
f(A) -> {A, A ! {A, 1 + 1}, 2}.
