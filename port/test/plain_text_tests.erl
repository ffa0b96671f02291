-module(plain_text_tests).
-include("units.hrl").

text(Expression) -> lists:flatten(io_lib:format("~s", [plain_text:expression(Expression)])).
list(Elements) -> lists:foldr(fun(H, T) -> {cons, H, T} end, nil, Elements).

atoms_test_() ->
    [?_assertEqual(Text, lists:flatten(plain_text:atom(Atom))) ||
        {Text, Atom} <- [{"a", a}, {"a@b_C1", a@b_C1}, {"'A'", 'A'}, {"'an atom'", 'an atom'}, {"'receive'", 'receive'}, {"'it\\'s'", 'it\'s'}, {"''", ''}]].
strings_test() -> ?assertEqual("\"a\\\"b\"", text(list([{int, $a}, {int, $"}, {int, $b}]))).
short_lists_test() -> ?assertEqual("[97]", text(list([{int, $a}]))).
lists_test() -> ?assertEqual("[1,X|T]", text({cons, {int, 1}, {cons, {var, "X"}, {var, "T"}}})).
operands_test() -> ?assertEqual("(-(1+0))-(A*2)", text({op, '-', {neg, {op, '+', {int, 1}, {int, 0}}}, {op, '*', {var, "A"}, {int, 2}}})).
negative_test() -> ?assertEqual("A-(-1)", text({op, '-', {var, "A"}, {int, -1}})).
guards_test() -> ?assertEqual(" when A<1,B;C", lists:flatten(plain_text:guarded([[{op, '<', {var, "A"}, {int, 1}}, {var, "B"}], [{var, "C"}]]))).
variables_test() -> ?assertEqual([{var, "A"}, {var, "B"}], plain_text:variables({tuple, [{var, "A"}, {var, "_"}, {cons, {var, "B"}, nil}]})).
