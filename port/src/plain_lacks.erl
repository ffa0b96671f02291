%% @doc What a function of the library lacks: its clauses that end with {refused, Module, Function, Arity} take the arguments that it
%% doesn't know. A call whose arguments are seen to come to such a clause is refused at its place, as a function that isn't known is.
-module(plain_lacks).
-export([refuse/4]).

-type tree() :: plain_tree:tree().

%% @doc Refuses a call of a source that surely comes to such a clause.
-spec refuse(module(), atom(), cerl:cerl(), [tree()]) -> ok.
refuse(Module, Function, Core, Arguments) ->
    #{lax := Lax} = plain_state:get(options),
    case plain_state:get(kind) =:= user andalso lists:any(fun reported/1, Arguments) andalso lacking(Core, Arguments) of
        true when not Lax ->
            plain_refusal:record(plain_state:get(file), plain_state:get(line),
                                 [call(Module, Function, Arguments), " is not translated, other arguments are (port/ENCODINGS.md); write what you need of it yourself"]);
        true -> plain_refusal:note("~ts is not translated; a process that comes here ends with {refused,..}", [call(Module, Function, Arguments)]);
        false -> ok
    end.

%% A call as its source has it, as far as it is known.
-spec call(module(), atom(), [tree()]) -> iodata().
call(Module, Function, Arguments) -> io_lib:format("~w:~w(~ts)", [Module, Function, lists:join(", ", [shown(Argument) || Argument <- Arguments])]).

-spec shown(tree()) -> iodata().
shown({lit, Term, _}) -> io_lib:format("~0tp", [Term]);
shown({tup, Elements}) -> ["{", lists:join(", ", [shown(Element) || Element <- Elements]), "}"];
shown({cons, Head, {lit, [], _}}) -> ["[", shown(Head), "]"];
shown({cons, Head, _}) -> ["[", shown(Head), " | _]"];
shown(_) -> "_".

-spec reported(tree()) -> boolean().
reported({v, _}) -> false;
reported(_) -> true.

%% Whether the first clause that may fit is one that refuses.
-spec lacking(cerl:cerl(), [tree()]) -> boolean().
lacking(Core, Arguments) ->
    Line = plain_state:get(line),
    Tree = plain_unique:function(Core),
    plain_state:put(line, Line),
    case Tree of
        {fn, _, Variables, {'case', Variables, Clauses, _}, _} -> first([Clause || Clause <- Clauses, may_fit(Clause, Arguments)]);
        _ -> false
    end.

-spec first([plain_tree:clause()]) -> boolean().
first([{_, _, {call, {lit, prim, _}, {lit, raw, _}, [{lit, exit, _}, Reason], _}} | _]) -> is_refusal(Reason);
first(_) -> false.

-spec is_refusal(tree()) -> boolean().
is_refusal({lit, Reason, _}) when is_tuple(Reason) -> element(1, Reason) =:= refused;
is_refusal(_) -> false.

-spec may_fit(plain_tree:clause(), [tree()]) -> boolean().
may_fit({Patterns, _, _}, Arguments) -> lists:all(fun({Pattern, Argument}) -> fits(Pattern, Argument) end, lists:zip(Patterns, Arguments)).

-spec fits(tree(), tree()) -> boolean().
fits({alias, _, Pattern}, Argument) -> fits(Pattern, Argument);
fits({lit, A, _}, {lit, B, _}) -> A =:= B;
fits({lit, A, _}, {tup, Elements}) -> is_tuple(A) andalso tuple_size(A) =:= length(Elements);
fits({lit, A, _}, {cons, _, _}) -> is_list(A) andalso A =/= [];
fits({lit, _, _}, {fn, _, _, _, _}) -> false;
fits({tup, Patterns}, {tup, Arguments}) ->
    length(Patterns) =:= length(Arguments) andalso lists:all(fun({P, A}) -> fits(P, A) end, lists:zip(Patterns, Arguments));
fits({tup, Patterns}, {lit, Term, Line}) when is_tuple(Term) -> fits({tup, Patterns}, {tup, [{lit, X, Line} || X <- tuple_to_list(Term)]});
fits({tup, _}, {lit, Term, _}) -> is_binary(Term) orelse is_map(Term) orelse is_float(Term); % these are tuples here
fits({tup, _}, {cons, _, _}) -> false;
fits({cons, Head, Tail}, {cons, H, T}) -> fits(Head, H) andalso fits(Tail, T);
fits({cons, Head, Tail}, {lit, [H | T], Line}) -> fits(Head, {lit, H, Line}) andalso fits(Tail, {lit, T, Line});
fits({cons, _, _}, {lit, _, _}) -> false;
fits({cons, _, _}, {tup, _}) -> false;
fits(_, _) -> true.
