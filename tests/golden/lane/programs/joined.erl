-module(m).
-export([main/0]).
main() -> L = app([1, 2], [3]), zip(rev(L, []), L).
app([], B) -> B;
app([X | T], B) -> [X | app(T, B)].
rev([], A) -> A;
rev([X | T], A) -> rev(T, [X | A]).
zip([X | Xs], [Y | Ys]) -> [{X, Y} | zip(Xs, Ys)];
zip(_, _) -> [].
