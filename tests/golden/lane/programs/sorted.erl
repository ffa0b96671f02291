-module(m).
-export([main/0]).
main() -> sort([3, 1, 2]).
sort([]) -> [];
sort([X]) -> [X];
sort(L) -> {A, B} = split(L, [], []), merge(sort(A), sort(B)).
split([], A, B) -> {A, B};
split([X | Xs], A, B) -> split(Xs, [X | B], A).
merge([], Ys) -> Ys;
merge(Xs, []) -> Xs;
merge([X | Xs], [Y | Ys]) when X =< Y -> [X | merge(Xs, [Y | Ys])];
merge([X | Xs], [Y | Ys]) -> [Y | merge([X | Xs], Ys)].
