-module(plain_size_tests).
-include("units.hrl").

by_module_test() ->
    Row = fun(Line, File) -> #{line => Line, name => "f/0", file => File, source_line => 1} end,
    Translation = #{text => <<"-module(a).\n-export([]).\nf()->1.\nlonger()->22.\ng()->3.\n">>, map => [Row(3, "a.erl"), Row(4, "b.erl"), Row(5, "a.erl")]},
    ?assertEqual([{16, "a"}, {14, "b"}], plain_size:by_module(Translation)).
