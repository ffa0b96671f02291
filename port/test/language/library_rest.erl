%% Small functions of erlang, and the time of day.
-module(library_rest).
-export([main/0]).

main() ->
    Day = calendar:datetime_to_gregorian_seconds(erlang:universaltime()) - 62167219200 - erlang:system_time(second),
    {{Y, Mo, D}, {H, Mi, S}} = {date(), time()},
    {abs(Day) =< 1, is_integer(Y + Mo + D + H + Mi + S), calendar:valid_date(Y, Mo, D), size(erlang:localtime()), size(erlang:now()),
     [tried(fun() -> erlang:delete_element(I, {a, b, c}) end) || I <- [1, 2, 3, 0, 4, x]],
     [tried(fun() -> erlang:insert_element(I, {a, b}, new) end) || I <- [1, 2, 3, 0, 4]],
     [erlang:fun_info(F, arity) || F <- [fun() -> ok end, fun(_, _) -> ok end, fun lists:sort/1]],
     erlang:bump_reductions(1), erlang:send_nosuspend(self(), sent), receive sent -> sent end, hd([erlang:time_offset(second)]) * 0}.

tried(F) -> try F() catch error:R -> R end.
