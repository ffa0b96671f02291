-module(refused_latin).
-export([main/0]).
main() -> atom_to_list('å').
%% refused: 3: the atom å has a character outside 32 to 126; rename it
