%% Calls whose module or function is a value: of this module by what it exports, of the library where it has them, and errors as Erlang has them.
-module(dynamic).
-export([main/0, open/0, open/1]).
-compile({nowarn_unused_function, [{hidden, 0}]}).

main() ->
    Mod = lists,
    Fn = reverse,
    self() ! {lists, sort, [[3, 1, 2]]},
    self() ! {erlang, element, [2, {a, b}]},
    self() ! {?MODULE, open, [1]},
    self() ! {?MODULE, hidden, []},
    [Self] = [M || M <- [?MODULE], M =/= lists],
    [Mod:reverse([1, 2]), lists:Fn([1, 2]), [told() || _ <- [1, 2, 3, 4]],
     Self:open(), (tried(fun() -> Self:hidden() end)), tried(fun() -> ?MODULE:hidden() end), tried(fun() -> apply(Self, hidden, tl([a])) end),
     tried(fun() -> apply(?MODULE, open, tl([a, b, c])) end), apply(?MODULE, open, tl([a, b])), apply(lists, max, tl([a, [1, 5, 2]])),
     tried(fun() -> (hd([1])):open() end), tried(fun ?MODULE:hidden/0), ended(hidden), ended(open),
     [F(X) || {F, X} <- [{fun Self:open/1, 7}, {fun lists:sum/1, [1, 2]}]],
     erlang:function_exported(Self, open, 0), erlang:function_exported(Self, hidden, 0)].

told() ->
    receive {M, F, As} -> tried(fun() -> apply(M, F, As) end) end.

tried(F) ->
    try F() catch error:Reason -> {error, Reason} end.

ended(Function) ->
    {P, R} = spawn_monitor(?MODULE, Function, []),
    receive {'DOWN', R, process, P, {Why, _}} -> Why; {'DOWN', R, process, P, Why} -> Why end.

open() -> opened.
open(X) -> {opened, X}.
hidden() -> hidden.
