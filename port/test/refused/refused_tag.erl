-module(refused_tag).
-export([main/0]).
main() -> {'#map', []}.
%% refused: 3: the atom '#map' marks an encoding; rename it
