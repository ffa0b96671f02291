-module(m).
-export([main/0]).
main() -> X = {1}, f(X, {1}), f(X, X), g([X, X], X).
f(A, A) -> same.
g([A | T], A) -> case T of [A] -> {T, A}; _ -> no end.
