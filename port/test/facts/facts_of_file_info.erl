%% What dets:info says of the size of an empty file, and since when a table is fixed and by whom.
-module(facts_of_file_info).
-export([main/0]).

main() ->
    {ok, T} = dets:open_file(kept, []),
    Items = [file_size, memory, safe_fixed, safe_fixed_monotonic_time],
    Empty = [dets:info(T, I) || I <- Items] ++ [[I || {I, _} <- dets:info(T)]],
    ok = dets:insert(T, {1, a}),
    dets:safe_fixtable(T, true),
    dets:safe_fixtable(T, true),
    {Since, By} = dets:info(T, safe_fixed_monotonic_time),
    {{A, B, C}, By} = dets:info(T, safe_fixed),
    dets:safe_fixtable(T, false),
    Fixed = [By =:= [{self(), 2}], dets:info(T, safe_fixed_monotonic_time) =:= {Since, [{self(), 1}]},
             lists:all(fun is_integer/1, [A, B, C]), dets:info(T, memory) > 5432],
    dets:safe_fixtable(T, false),
    Empty ++ Fixed ++ [dets:info(T, safe_fixed), dets:close(T)].
