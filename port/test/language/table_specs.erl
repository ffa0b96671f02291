%% Match specifications: what is one, and what it makes of maps, binaries and floats.
-module(table_specs).
-export([main/0]).

main() -> specs().

tried(F) -> try F(), ok catch C:R -> {C, R} end.

specs() ->
    Ms = [{{'$1', '$2'}, [{'>', '$1', 1}], ['$2']}],
    C = ets:match_spec_compile(Ms),
    {ets:is_compiled_ms(C), ets:is_compiled_ms(Ms), ets:match_spec_run([{1, a}, {2, b}, {3, c}, x], C), ets:test_ms({2, b}, Ms), ets:test_ms({1, b}, Ms),
     [tried(fun() -> ets:match_spec_compile(X) end) || X <- [[], x, [x], [{'$1', [], []}], [{'$1', [], ['$2']}], [{'$1', [{x, 1}], [1]}], [{[], [], [1]}]]],
     [ets:match_spec_run([{#{a => 1, b => 2}, <<"x">>, 1.5}], ets:match_spec_compile(M)) ||
         M <- [[{{#{a => '$1'}, '_', '_'}, [], ['$1']}], [{{#{c => '$1'}, '_', '_'}, [], ['$1']}], [{{'$1', <<"x">>, '$2'}, [], [#{k => '$2', 1 => {map_get, b, '$1'}}]}],
               [{{'$1', '$2', '$3'}, [{is_map, '$1'}, {is_binary, '$2'}, {is_float, '$3'}], [{{{map_size, '$1'}, {byte_size, '$2'}, {'*', '$3', 2}}}]}],
               [{{'_', '_', '$12'}, [{'and', {is_number, '$12'}, true, {'not', false}}], ['$$']}]]]}.

