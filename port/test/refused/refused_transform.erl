-module(refused_transform).
-compile({parse_transform, no_such_transform}).
-export([main/0]).
main() -> ok.
%% refused: 1: the parse transform no_such_transform isn't on the path; name its folder by ERL_LIBS
