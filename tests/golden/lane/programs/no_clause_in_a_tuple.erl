-module(m).
-export([main/0]).
main() -> {f(1), f(2), f({3, 4}), f([])}.
f(1) -> one;
f(2) -> {two};
f({X, Y}) -> X + Y;
f([_ | _]) -> list.
