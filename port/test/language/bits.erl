%% Binaries of parts: integers of any size, sign and order, binaries of a size, characters, comprehensions.
-module(bits).
-export([main/0]).

packet(<<Version:4, Kind:4, Length:16, Body:Length/binary, Rest/binary>>) -> {Version, Kind, Length, Body, Rest};
packet(<<Version:4, _:4, Length:16, Some/binary>>) -> {short, Version, Length, byte_size(Some)};
packet(<<One:3, Two:5>>) -> {byte, One, Two};
packet(_) -> none.

signed(<<A:8/signed, B:16/signed-little, C:16/little, D:24/signed>>) -> {A, B, C, D};
signed(<<A:64/signed>>) -> A;
signed(<<A:64/signed-little, _/binary>>) -> {low, A}.

units(<<N, L:N/unit:8, R:2/binary-unit:4, Rest/binary>>) -> {L, R, Rest};
units(_) -> no.

across(<<A:4, B:16/little, C:4, "end">>) -> {A, B, C};
across(<<A:4, B:12/signed, C/binary>>) -> {A, B, C};
across(_) -> no.

characters(<<C/utf8, Rest/binary>>) -> [C | characters(Rest)];
characters(<<>>) -> [];
characters(Bad) -> {bad, Bad}.

within(Size, Binary) ->
    case Binary of
        <<Part:Size/binary, Rest/binary>> when Size > 1 -> {Part, Rest};
        <<First, _/binary>> -> First;
        _ -> nothing
    end.

received(Size) ->
    self() ! {data, <<1, 2, 3, 4>>},
    receive {data, <<Part:Size/binary, Rest/binary>>} -> {Part, Rest} end.

built(A, B, N, Bin) ->
    [<<A:4, B:4>>, <<A:16>>, <<A:16/little>>, <<(-A):24>>, <<A:N/unit:8>>, <<Bin:1/binary, A:8>>, <<A:4, Bin/binary, B:4>>,
     <<A:12/big, B:4, Bin:2/binary>>, <<B:64/little>>, <<B:72>>, <<A/utf8, 8364/utf8, $x>>].

tried(F) -> try F() catch C:R -> {C, R} end.

main() ->
    Two = <<5, 0, 2, "ab", "rest">>,
    Big = <<(1 bsl 40):64, 7>>,
    {[packet(Two), packet(<<18, 0, 9, "abc">>), packet(<<165>>), packet(<<1, 2>>), packet(<<>>), packet(a)],
     [signed(<<255, 254, 255, 1, 2, 255, 255, 254>>), signed(<<-5:64>>), signed(<<(-7):64/little, 1>>), signed(Big)],
     [units(<<2, 1, 2, 9, 8, 7>>), units(<<3, 1>>), units(<<0, 5, 6>>)],
     [across(<<16#AB, 16#CD, 16#EF, "end">>), across(<<16#1F, 16#FF, 9>>), across(<<1>>)],
     [characters(<<"a", 195, 164, 226, 130, 172, 240, 159, 152, 128>>), characters(<<195>>), characters(<<237, 160, 128>>), characters(<<192, 128>>)],
     [within(2, <<1, 2, 3>>), within(1, <<9, 8>>), within(5, <<4>>), within(2, <<>>), received(3)],
     built(3, 5, 2, <<"xyz">>),
     [X || <<X:16>> <= <<1, 2, 3, 4, 5>>], [{A, B} || <<A:4, B:4>> <= <<16#12, 16#34>>],
     << <<(X * 2):8>> || X <- [1, 2, 3], X > 1 >>, << <<X>> || <<X:16>> <= <<0, 7, 0, 8>> >>,
     [tried(fun() -> built(a, 1, 1, <<"xy">>) end), tried(fun() -> built(1, 1, x, <<"xy">>) end), tried(fun() -> built(1, 1, 1, <<>>) end),
      tried(fun() -> signed(<<1>>) end), tried(fun() -> <<_:16>> = Two, ok end)],
     [byte_size(<<0:24>>), bit_size(Two), binary_part(Two, 3, 2), split_binary(Two, 3), <<1:16/little>> =:= <<1, 0>>, 5 band -2, -5 bor 2, -1 bxor 12, bnot 9]}.
