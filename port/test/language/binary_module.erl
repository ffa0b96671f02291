%% The module binary: places, parts, patterns, and numbers.
-module(binary_module).
-export([main/0]).

main() ->
    B = <<"a,b,,c">>,
    {[binary:at(B, I) || I <- [0, 5]], binary:first(B), binary:last(B), binary:part(B, 1, 2), binary:part(B, {5, -2}), binary:copy(<<"ab">>, 3),
     binary:match(B, <<",">>), binary:match(B, [<<"x">>, <<",,">>, <<",">>]), binary:match(B, <<"z">>), binary:matches(B, <<",">>),
     binary:split(B, <<",">>), binary:split(B, <<",">>, [global]), binary:split(<<"a,b,,">>, <<",">>, [global, trim]), binary:split(B, <<",">>, [global, trim_all]),
     binary:replace(B, <<",">>, <<"--">>), binary:replace(B, [<<",">>, <<"b">>], <<>>, [global]), binary:encode_unsigned(65535), binary:decode_unsigned(<<1, 0>>),
     binary:longest_common_prefix([<<"abc">>, <<"abd">>]), binary:bin_to_list(B, 0, 3),
     [tried(F) || F <- [fun() -> binary:at(B, 9) end, fun() -> binary:split(B, <<>>) end, fun() -> binary:split(B, <<",">>, [x]) end, fun() -> binary:part(B, 4, 9) end,
                        fun() -> binary:match(a, <<",">>) end, fun() -> list_to_binary([256]) end, fun() -> list_to_binary(B) end]]}.

tried(F) -> try F() catch error:R -> R end.
