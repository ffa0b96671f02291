-module(refused_fmt).
-export([main/0]).
main() -> re:run("abc", "b").
%% refused: 3: re:run/2 makes or reads text or binaries, which is not translated; keep terms, or put a module of that name among the files
