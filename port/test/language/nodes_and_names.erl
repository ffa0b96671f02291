%% Calls on the one node, names of files, and the code that is there.
-module(nodes_and_names).
-export([main/0, hello/1, fails/1]).

hello(X) -> {hello, X}.

fails(error) -> error(oops);
fails(exit) -> exit(gone);
fails(throw) -> throw(thrown).

main() ->
    {[rpc:call(node(), ?MODULE, hello, [X]) || X <- [1, a]], rpc:call(node(), ?MODULE, hello, [2], 5000), rpc:call(other@nowhere, ?MODULE, hello, [1]),
     rpc:call(node(), ?MODULE, fails, [exit]), rpc:call(node(), ?MODULE, fails, [throw]), error_of(rpc:call(node(), ?MODULE, fails, [error])),
     rpc:multicall(?MODULE, hello, [3]), rpc:multicall([node()], ?MODULE, hello, [3]), erpc:call(node(), ?MODULE, hello, [4]), erpc:call(node(), fun() -> five end),
     [tried(fun() -> erpc:call(node(), ?MODULE, fails, [C]) end) || C <- [exit, throw]], rpc:cast(node(), ?MODULE, hello, [1]),
     {filename:join("a", "b"), filename:join(["/a", "b", "c.erl"]), filename:basename("x/y.erl"), filename:basename("x/y.erl", ".erl"), filename:dirname("x/y/z"),
      filename:extension("a.b.c"), filename:rootname("x/a.erl"), filename:rootname("a.erl", ".erl"), filename:split("/a/b"), filename:pathtype("/a")},
     code:ensure_loaded(lists), code:ensure_loaded(no_such_module), code:ensure_loaded(hd([?MODULE])), os:type()}.

error_of({badrpc, {'EXIT', {Why, _}}}) -> Why.
tried(F) -> try F() catch C:R -> {C, R} end.
