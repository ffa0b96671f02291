%% Match specifications apart from tables, slots, replacing, and what fills a table.
-module(tables_rest).
-include_lib("stdlib/include/ms_transform.hrl").
-export([main/0]).

main() ->
    T = ets:new(t, [ordered_set]),
    true = ets:init_table(T, source([[{1, a}, {2, b}], [{3, c}]])),
    Above = ets:fun2ms(fun({K, V}) when K > 1 -> {V, K} end),
    Selected = ets:select(T, Above),
    Compiled = ets:match_spec_compile(Above),
    Replaced = ets:select_replace(T, [{{'$1', b}, [], [{{'$1', new}}]}]),
    {Selected, ets:is_compiled_ms(Compiled), ets:is_compiled_ms(x), ets:match_spec_run([{0, x}, {5, y}, {6, z}], Compiled), Replaced, ets:tab2list(T),
     [ets:slot(T, I) || I <- [0, 1, 2, 3]], tried(fun() -> ets:slot(T, 9) end), ets:test_ms({5, y}, Above), ets:test_ms({0, y}, Above),
     tried(fun() -> ets:match_spec_run([], x) end), tried(fun() -> ets:select_replace(T, [{{'$1', '_'}, [], [{{9, x}}]}]) end)}.

source([]) -> fun(read) -> end_of_input; (close) -> ok end;
source([Part | Parts]) -> fun(read) -> {Part, source(Parts)}; (close) -> ok end.

tried(F) -> try F() catch error:R -> R end.
