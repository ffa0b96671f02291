-module(corners).
-export([main/0, ext/1]).
%% odd corners
-record(p, {x, y = {0, 0}, z = fun() -> ok end}).
main() ->
    A = {a, B = 2}, C = B + (D = 3), D2 = D * 2, _ = D2,
    X = case B of 2 -> E = 1, F = 2, E; _ -> E = 3, F = 4, F end,
    Fs = [fun(N) when N > I -> {big, N, I}; (N) -> {small, N, I} end || I <- [1, 2]],
    R = #p{x = 1}, R2 = R#p{x = 2, y = {1, 1}}, #p{y = {Y1, _}} = R2,
    G = fun F1(0, Acc) -> Acc; F1(N, Acc) -> F1(N - 1, [N | Acc]) end,
    T = try throw({a, 1}) catch {K, V} -> {K, V}; _ -> none end,
    T2 = try lists:map(fun(Q) -> 10 div Q end, [1, 0]) catch error:badarith -> div0 end,
    T3 = try try error(inner) after put(x, cleaned) end catch error:inner -> get(x) end,
    T4 = (catch lists:foreach(fun(Q) when Q > 2 -> throw({found, Q}); (_) -> ok end, [1, 2, 3, 4])),
    T5 = try receive nope -> ok after 0 -> exit(timeout) end catch exit:timeout -> timed end,
    L = [{P, Q} || P <- [1, 2, 3], Q <- lists:seq(1, P), P rem 2 =:= 1 orelse Q > 1],
    M = #{k => [1, 2], "str" => {t}, {a, b} => #{n => 1}},
    #{{a, b} := #{n := N1}, k := [H | _]} = M,
    Z = if is_list(L), length(L) > 3 -> yes; true -> no end,
    W = [begin Y = I * 2, Y + 1 end || I <- [1, 2, 3], I /= 2],
    S = "con" "cat" ++ [$! | "x"],
    <<"bin">> = bin(1),
    U = element(2, lists:keyfind(b, 1, [{a, 1}, {b, 2}])) bor 8,
    Sum = lists:foldl(fun erlang:'+'/2, 0, [1, 2, 3]),
    Ops = lists:map(fun({O, P1, P2}) -> O(P1, P2) end, [{fun erlang:max/2, 1, 2}, {fun(Aa, Bb) -> Aa - Bb end, 5, 3}, {fun sub/2, 9, 4}]),
    Mod = ?MODULE, Fn = ext,
    _ = Fs,
    {A, C, X, E, F, [Fun(2) || Fun <- Fs], R2#p.x, Y1, (R#p.z)(), G(3, []), T, T2, T3, T4, T5, L, N1, H, Z, W, S, U, Sum, Ops, Mod:Fn(1), apply(Mod, ext, [2]), apply(fun ext/1, [3]), ?LINE, ?FUNCTION_NAME,
     is_function(G, 2), maps:fold(fun(_, _, Acc) -> Acc + 1 end, 0, M), lists:sort([c, 1, {a}, "x", b]), not (B > 1), (B > 1) xor true, -B, 7 rem -3, -7 div 2, [] == "", 1 =:= 2, tl([1]), (fun(_) -> any end)(1)}.
bin(1) -> <<"bin">>;
bin(_) -> <<"other">>.
sub(A, B) -> A - B.
ext(N) -> {ext, N}.
