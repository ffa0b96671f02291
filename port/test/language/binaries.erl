%% Binaries of bytes, and text.
-module(binaries).
-export([main/0]).
parse(<<"GET ", Rest/binary>>) -> {get, word(Rest, <<>>)};
parse(<<C, _/binary>>) when C =:= $P -> put;
parse(<<>>) -> empty;
parse(B) when byte_size(B) > 3 -> {long, B};
parse(_) -> other.
word(<<$\s, _/binary>>, A) -> A;
word(<<C, R/binary>>, A) -> word(R, <<A/binary, C>>);
word(<<>>, A) -> A.
key(X) when is_binary(X) -> {bin, X};
key(X) when is_tuple(X) -> {tuple, X};
key(X) -> {other, X}.
main() ->
    A = <<"abc">>, B = <<A/binary, "-", (integer_to_binary(42))/binary>>,
    [parse(<<"GET /x HTTP">>), parse(<<"PUT">>), parse(<<>>), parse(<<"hello">>), parse(<<"x">>), B, byte_size(B), binary_to_list(B), key(A), key({a}), key(1),
     iolist_to_binary(["a", [$b, <<"c">>]]), B =:= <<"abc-42">>, maps:get(<<"k">>, #{<<"k">> => 1}), lists:flatten(io_lib:format("~p-~s ~w~n", [{a, 1}, "x", [b]])),
     try <<(f(x)), 1>> catch error:badarg -> badarg end, atom_to_binary(abc, utf8), binary_to_atom(<<"abc">>, utf8), list_to_atom("get"), binary_to_integer(<<"17">>)].
f(X) -> X.
