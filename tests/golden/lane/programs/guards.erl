-module(m).
-export([main/0]).
main() -> {f(1, 2), f(2, 1), f(a, 1), f([1], []), f({1}, {2}), g(3, 4)}.
f(X, Y) when X > Y, is_integer(X) -> more;
f(X, Y) when X < Y -> less;
f(X, X) -> same;
f([X | T], T) when X > 0; T == [] -> list;
f(_, _) -> other.
g(X, Y) when X + 1 == Y; X > 7 -> next;
g(X, Y) when X + a == Y -> never.
