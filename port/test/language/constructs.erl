-module(constructs).
-export([main/0,reverse/1]).
-record(r,{a,b=1}).
f(X) when X > 0, X < 10; X == a, is_list(tl(X)) -> X;
f(#r{a=A}=R) when R#r.b > 1 -> A;
f({x,Y={a,Z}}) when not (Z > 1 andalso Y < 3 orelse is_atom(Z)) -> Y;
f(_) -> none.
h(M) -> receive {a, M, X} when X > 1 -> X; b -> 2 after 100 -> 3 end.
i2() -> (catch f2(1)) .
f2(2) -> 1.
j(M) -> #{a := X} = M, M2 = M#{b => X, c => M}, {maps:get(b, M2), M#{a := 3}, #{1=>2}}.
k(X) -> case X of 1 -> A = 1; 2 -> A = 2 end, B = if A > 1 -> 1; true -> 2 end, {A,B}.
l(F) -> F(1), G = fun Loop(0) -> done; Loop(X) -> Loop(X-1) end, G(F(3)).
m(X,Y,R) -> {X and Y, X andalso Y, not X, R#r{b=2}, (R#r{b=5})#r.b, [1,2,3,1] -- [1,3], R#r{a=9,b=8}}.
n() -> receive after 10 -> ok end, receive X -> X after 0 -> none end.
p(X) -> [Y || {Y,#{a := 1}} <- X].
o(<<"abc">>) -> yes; o(_) -> no.
q(X) -> try q2(X) of ok -> fine; V -> {v,V} catch throw:T -> {thrown,T}; error:E -> {err,E}; exit:E -> {ex,E} after self() ! after_q end.
q2(1) -> ok;
q2(2) -> throw(t);
q2(3) -> 1 + q3(a);
q2(4) -> exit(bye);
q2(5) -> hd(q3([]));
q2(6) -> {q3(1), q3(2)};
q2(7) -> receive {nix, X} -> X after 0 -> timeout end.
q3(X) -> X.
r(X, Y = #{k := #{z := Z}}) when X > Z -> {big, Y}; r(X, #{k := Z}) when is_integer(Z), X =:= Z -> eq; r(_, #{}) -> map; r(_, _) -> other.
s(F, L) -> apply(F, L).
u(M, F, A) -> M:F(A).
main() ->
  self() ! {a, m, 5}, self() ! b,
  [f(5), f({r,7,2}), f({r,7,1}), f({x,{a,1}}), f({x,{a,b}}), h(m), h(q), i2(), j(#{a=>1}), k(1), k(2), l(fun(X) -> X * 2 end),
   m(true,false,#r{a=1}), n(), p([{1,#{a=>1}},{2,#{}},{3,#{a=>2}},{4,#{a=>1,b=>2}}]), o(<<"abc">>), o(<<"abd">>),
   [q(N) || N <- [1,2,3,4,5,6,7]], r(3, #{k=>#{z=>1}}), r(3, #{k=>3}), r(2,#{k=>3}), r(2,3),
   s(fun(A,B) -> A-B end, [5,3]), s(fun lists:reverse/1, [[1,2]]), lists:map(fun erlang:abs/1, [-1,2]), u(lists2(), reverse, [1,2]), is_map(#{}), is_function(fun main/0, 0),
   (catch throw(x)), begin A1 = 3, B1 = A1 + 1, B1 end, integer_to_list(-120), max(3,4), [X || X <- "hello", X > $h],
   element(2, {a,b}), lists:sort(fun(A,B) -> A >= B end, [1,3,2]), lists:keysort(2, [{a,3},{b,1}]), maps:to_list(maps:merge(#{a=>1},#{b=>2})), "a\"b\n" ++ [0], receive after_q -> got end].
lists2() -> constructs.
reverse(X) -> {rev, X}.
