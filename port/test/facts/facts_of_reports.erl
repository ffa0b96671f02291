%% The texts of reports by proc_lib:format: each is the same on erl and in every run of the tool.
-module(facts_of_reports).
-export([main/0]).

main() -> whole() ++ errors() ++ depths() ++ wrong().

t(F) -> try lists:flatten(F()) catch C:R -> {C, kind(R)} end.

kind(R) when is_tuple(R) -> element(1, R);
kind(R) -> R.

own(Error) -> [{initial_call, {m, init, ['Argument__1']}}, {registered_name, []}, {error_info, Error}, {ancestors, [a, b]}, {message_queue_len, 0}].

whole() ->
    [t(fun() -> proc_lib:format([own({exit, boom, []}), []]) end),
     t(fun() -> proc_lib:format([[{initial_call, {m, 'f g', []}}, {dictionary, [{k, "text"}, {l, #{a => 1}}]}, x, {left, out}], [{neighbour, [{registered_name, n}, {links, []}]}]], unicode) end),
     t(fun() -> proc_lib:format([[{initial_call, {m, f, 2}}, {tag, 1.5}], [[{a, 1}], {neighbour, other}]], latin1) end),
     t(fun() -> proc_lib:format([{not_a, list}, []], utf8) end), t(fun() -> proc_lib:format([[], []]) end)].

errors() ->
    Stack = [{m, f, 1, [{file, "m.erl"}, {line, 3}]}, {m, 'G', 0, []}, {proc_lib, init_p, 3, [{file, "proc_lib.erl"}, {line, 1}]}],
    [t(fun() -> proc_lib:format([[{error_info, Error}], []]) end)
     || Error <- [{error, {badmatch, {error, enoent}}, []}, {error, badarg, Stack}, {error, undef, Stack}, {exit, {shutdown, [1, 2]}, Stack}, {throw, <<"ball">>, []}, {error, {case_clause, 7}, [x]},
                  {error, if_clause, []}, {error, function_clause, Stack}, {error, {badkey, k}, []}, {exit, calling_self, []}, {error, badarith, []}, {error, mine, []}, {exit, {a, <<1, 2, 3>>, "b\n"}, []}]].

depths() ->
    T = {a, [b, [c, {d, e}], f, g], #{k => {v, w}, l => m, n => o}, <<"a longer text">>, "text", h, i},
    [t(fun() -> proc_lib:format([[{data, T}, {half, {0.5}}, {list, [1000, 2000, 3000, 4000, 5000]}, {bytes, <<0, 1, 2, 3, 4>>}], []], latin1, D) end) || D <- [1, 2, 3, 4, 5]]
        ++ [t(fun() -> proc_lib:format([own({exit, {a, {b, {c, {d, e}}}}, []}), []], unicode, D) end) || D <- [2, 4, unlimited]].

wrong() -> [t(fun() -> proc_lib:format(x) end), t(fun() -> proc_lib:format([a]) end), t(fun() -> proc_lib:format([[{error_info, x}], []]) end), t(fun() -> proc_lib:format([[{error_info, {other, x, []}}], []]) end),
            t(fun() -> proc_lib:format([[{initial_call, x}], []]) end)].
