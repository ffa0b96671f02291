-module(refused_improper2).
-export([main/0]).
main() -> [a | b].
%% refused: 3: the profile has no improper lists; take a tuple {Head, Tail}
