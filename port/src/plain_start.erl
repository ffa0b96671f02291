%% @doc How processes begin in the traced form: a mark says what each runs, and another that it returned.
-module(plain_start).
-export([texts/0, exports/0]).

%% @doc What the module exports.
-spec exports() -> [{atom(), arity()}].
exports() ->
    Exports = plain_state:keys(exports),
    case plain_trace:traced() of
        true -> [{Root, 0} || Root <- plain_state:get(roots)] ++ [{'start@', 2}];
        false -> Exports
    end.

%% @doc The functions `start@' and `begin@'.
-spec texts() -> [{string(), iodata()}].
texts() ->
    case plain_trace:traced() of
        true ->
            Entries = [Export || {Name, Arity} = Export <- plain_state:keys(exports), not (Arity =:= 0 andalso lists:member(Name, plain_state:get(roots)))],
            [{"start", [[start(Entry) || Entry <- Entries], "start@(_,_)->whereis('@0').\n"]}, {"begin", begins()}];
        false -> []
    end.

-spec start({atom(), arity()}) -> iodata().
start({Name, Arity}) ->
    Arguments = lists:join(",", ["A" ++ integer_to_list(I) || I <- lists:seq(1, Arity)]),
    Begun = case {Name, plain_state:find_in(lifted, Name)} of
        {'call@0', _} -> "begin@(A1)";
        {_, {ok, #{free := Free}}} -> plain_trace:begun(["A" ++ integer_to_list(I) || I <- lists:seq(1, Arity)], Free, {atom, list_to_atom("@f " ++ atom_to_list(Name))});
        {_, error} -> ["whereis(", named(Name, Arity), ")"]
    end,
    ["start@(", plain_text:atom(Name), ",[", Arguments, "])->", Begun, ",V=", plain_text:atom(Name), "(", Arguments, "),whereis('@0'),V;\n"].

%% The mark of a process that runs a named function.
-spec named(atom(), arity()) -> iodata().
named(Name, Arity) -> plain_text:atom(list_to_atom(lists:concat(["@f ", Name, "/", Arity]))).

-spec begins() -> iodata().
begins() ->
    Lifted = lists:sort(maps:to_list(plain_state:get(lifted))),
    Funs = maps:keys(plain_state:get(funs)),
    [[plain_trace:begin_clause(Name, Free, {atom, list_to_atom("@f " ++ atom_to_list(Name))}) || {Name, #{free := Free}} <- Lifted, lists:member(Name, Funs)],
     [["begin@({'#fun',_,", plain_text:atom(plain_reach:tag(Key)), "})->whereis(", plain_text:atom(list_to_atom("@f " ++ atom_to_list(plain_reach:tag(Key)))), ");\n"]
      || {_, _, _} = Key <- lists:sort(Funs)],
     "begin@(_)->whereis('@0').\n"].
