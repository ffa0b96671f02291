%% Four roots: one that holds, two that fail, and, where LACKING is set, one that can't be translated.
-module(roots).
-export([holds/0, crashes/0, hangs/0, helper/1]).
-ifdef(LACKING).
-export([lacks/0]).
lacks() -> file:list_dir("."), ok.
-endif.

holds() -> helper(3).

crashes() -> helper("three").

hangs() -> receive never -> ok end.

helper(N) when is_integer(N) -> ok.
