-module(plain_inline_tests).
-include("units.hrl").

text(Body) -> lists:flatten([io_lib:format("~s", [plain_text:body(plain_inline:body(Body))])]).
v(Name) -> {var, Name}.
f(Name, Arguments) -> {call, Name, Arguments}.

once_test() -> ?assertEqual("g(f(X),1)", text([{match, v("A"), f(f, [v("X")])}, f(g, [v("A"), {int, 1}])])).
twice_stays_test() -> ?assertEqual("A=f(),g(A,A)", text([{match, v("A"), f(f, [])}, f(g, [v("A"), v("A")])])).
chain_test() -> ?assertEqual("[f()|g()]", text([{match, v("A"), f(f, [])}, {match, v("B"), f(g, [])}, {cons, v("A"), v("B")}])).
order_stays_test() -> ?assertEqual("A=f(),h(g(),A)", text([{match, v("A"), f(f, [])}, f(h, [f(g, []), v("A")])])).
values_before_test() -> ?assertEqual("h({1,X},f())", text([{match, v("A"), f(f, [])}, f(h, [{tuple, [{int, 1}, v("X")]}, v("A")])])).
case_test() -> ?assertEqual("case f() of 1->a end", text([{match, v("A"), f(f, [])}, {'case', v("A"), [{{int, 1}, [], [{atom, a}]}]}])).
not_into_clauses_test() ->
    ?assertEqual("A=f(),case X of 1->A end", text([{match, v("A"), f(f, [])}, {'case', v("X"), [{{int, 1}, [], [v("A")]}]}])).
not_over_an_effect_test() -> ?assertEqual("A=f(),g(),A", text([{match, v("A"), f(f, [])}, f(g, []), v("A")])).
not_behind_andalso_test() -> ?assertEqual("A=f(),B andalso A", text([{match, v("A"), f(f, [])}, {op, 'andalso', v("B"), v("A")}])).
not_into_receive_test() ->
    ?assertEqual("A=f(),receive B when B=:=A->1 end", text([{match, v("A"), f(f, [])}, {recv, [{v("B"), [[{op, '=:=', v("B"), v("A")}]], [{int, 1}]}]}])).
