%% @doc The texts of dispatchers: functions with a clause for each fun, or for each module, that a call may mean.
-module(plain_dispatch).
-export([texts/0, failing/2]).

%% @doc All dispatchers that are used, each with its name.
-spec texts() -> [{string(), iodata()}].
texts() ->
    [{label(Call), of_funs(Call)} || Call <- plain_state:keys(calls)] ++
    [{remote_label(Call), of_modules(Call)} || Call <- plain_state:keys(remote_calls)].

-spec label({term(), plain_reach:mode()}) -> string().
label({What, _}) when is_integer(What) -> lists:concat(["a call of a fun of ", What, " arguments"]);
label({apply_fun, _}) -> "apply/2";
label({fun_name, _}) -> "the names of funs";
label({apply_function, _}) -> "apply/3".

-spec remote_label({module() | any, atom() | any, arity(), plain_reach:mode()}) -> string().
remote_label({any, any, Arity, _}) -> lists:concat(["a call of any function of ", Arity, " arguments"]);
remote_label({any, Function, Arity, _}) -> lists:concat(["a call of Module:", Function, "/", Arity]);
remote_label({Module, any, Arity, _}) -> lists:concat(["a call of a function of ", Module, " of ", Arity, " arguments"]).

-spec variables(string(), non_neg_integer()) -> [string()].
variables(Letter, Number) -> [Letter ++ integer_to_list(I) || I <- lists:seq(1, Number)].

-spec comma([iodata()]) -> iodata().
comma(Parts) -> lists:join(",", Parts).

-spec of_funs({arity() | apply_fun | apply_function | fun_name, plain_reach:mode()}) -> iodata().
of_funs({fun_name, _}) ->
    [[["'named@'(F) when element(3,F)=:=", plain_text:atom(case Key of {_, _, _} -> plain_reach:tag(Key); _ -> Key end), "->",
       plain_text:expression(plain_value:literal(Name, 0)), ";\n"] || {Key, Name} <- plain_value:fun_names()],
     "'named@'(_)->'$fun'.\n"];
of_funs({apply_fun, Mode}) ->
    Name = plain_text:atom(plain_reach:in_mode('applyf@', Mode)),
    Clause = fun(Arity) ->
        [Name, "(F,[", comma(variables("A", Arity)), "])->", plain_text:atom(plain_reach:dispatcher(Arity, Mode)), "(", comma(["F" | variables("A", Arity)]), ");\n"]
    end,
    [[Clause(Arity) || Arity <- lists:usort(maps:values(plain_state:get(funs)))], Name, "(F,_)->", failing(Mode, "{badfun,F}"), ".\n"];
of_funs({apply_function, Mode}) ->
    Name = plain_text:atom(plain_reach:in_mode('applym@', Mode)),
    Clause = fun({Module, Function, Arity}) ->
        [Name, "(", plain_text:atom(Module), ",", plain_text:atom(Function), ",[", comma(variables("A", Arity)), "])->",
         target(Module, Function, Arity, Mode), "(", comma(line(Module, Function, Arity, Mode) ++ variables("A", Arity)), ");\n"]
    end,
    [[Clause(Target) || Target <- plain_reach:exported_functions()], Name, "(M,F,A) when is_list(A)->", gap(Mode), "(M,F,length(A));\n",
     Name, "(_,_,_)->", failing(Mode, "badarg"), ".\n"];
of_funs({Arity, Mode}) ->
    Name = plain_text:atom(plain_reach:dispatcher(Arity, Mode)),
    Arguments = variables("A", Arity),
    Keys = lists:sort([Key || {Key, Number} <- maps:to_list(plain_state:get(funs)), Number =:= Arity]),
    [[of_fun(Key, Name, Arguments, Mode) || Key <- Keys], Name, "(", comma(["F" | ["_" || _ <- Arguments]]), ")->", failing(Mode, "{badfun,F}"), ".\n"].

-spec of_fun(atom() | {module(), atom(), arity()}, iodata(), [string()], plain_reach:mode()) -> iodata().
of_fun({Module, Function, Arity} = Key, Name, Arguments, Mode) ->
    Own = plain_reach:fun_mode(Key, Mode),
    Call = [target(Module, Function, Arity, Own), "(", comma(line(Module, Function, Arity, Own) ++ Arguments), ")"],
    [Name, "(", comma([["{'#fun',_,", plain_text:atom(plain_reach:tag(Key)), "}"] | Arguments]), ")->", called(Key, Call, Mode), ";\n"];
of_fun(Key, Name, Arguments, Mode) ->
    {ok, #{free := Free, where := #{kind := Kind}}} = plain_state:find_in(lifted, Key),
    Kept = variables("F", length(Free)),
    Own = plain_reach:fun_mode(Key, Mode),
    Target = plain_text:atom(plain_reach:in_mode(Key, Own)),
    Unplaced = ["'@0'" || _ <- plain_trace:line(Kind, Own)],
    [Name, "(", comma([["{'#fun',_,", plain_text:atom(Key), [[",", X] || X <- Kept], "}"] | Arguments]), ")->",
     called(Key, [Target, "(", comma(Unplaced ++ Kept ++ Arguments), ")"], Mode), ";\n"].

%% What a dispatcher answers where a fun stays plain in the traced form.
-spec called(atom() | {module(), atom(), arity()}, iodata(), plain_reach:mode()) -> iodata().
called(Key, Call, Mode) ->
    case {Mode, plain_reach:fun_mode(Key, Mode)} of
        {traced, plain} -> ["{v,", Call, "}"];
        _ -> Call
    end.

-spec target(module(), atom(), arity(), plain_reach:mode()) -> iodata().
target(Module, Function, Arity, Mode) ->
    Name = case plain_reach:target(Module, Function, Arity, Mode) of
        {lifted, Wrapper, _} -> Wrapper;
        {function, _, _, _, _} -> plain_reach:name(Module, Function, Arity)
    end,
    plain_text:atom(plain_reach:in_mode(Name, Mode)).

%% The mark of a call that a dispatcher doesn't know.
-spec line(module(), atom(), arity(), plain_reach:mode()) -> [string()].
line(Module, Function, Arity, Mode) ->
    Kind = case plain_reach:target(Module, Function, Arity, Mode) of
        {lifted, Wrapper, _} ->
            {ok, #{where := #{kind := Where}}} = plain_state:find_in(lifted, Wrapper),
            Where;
        {function, _, _, _, _} -> element(1, plain_modules:find(Module, Function, Arity))
    end,
    ["'@0'" || _ <- plain_trace:line(Kind, Mode)].

-spec of_modules({module() | any, atom() | any, arity(), plain_reach:mode()}) -> iodata().
of_modules({Of, Wanted, Arity, Mode}) ->
    Name = plain_text:atom(plain_reach:in_mode(plain_reach:remote_name(Of, Wanted, Arity), Mode)),
    Arguments = variables("A", Arity),
    Clause = fun({Module, Function}) ->
        Own = plain_reach:target_mode(Module, Mode),
        Call = [target(Module, Function, Arity, Own), "(", comma(line(Module, Function, Arity, Own) ++ Arguments), ")"],
        [Name, "(", comma([plain_text:atom(Module) || Of =:= any] ++ [plain_text:atom(Function) || Wanted =:= any] ++ Arguments), ")->",
         case Own of Mode -> Call; plain -> ["{v,", Call, "}"] end, ";\n"]
    end,
    {M, First} = case Of of any -> {"M", ["M"]}; _ -> {plain_text:atom(Of), []} end,
    {F, Second} = case Wanted of any -> {"F", ["F"]}; _ -> {plain_text:atom(Wanted), []} end,
    [[Clause(Target) || Target <- plain_reach:remote_targets(Of, Wanted, Arity)],
     Name, "(", comma(First ++ Second ++ ["_" || _ <- Arguments]), ")->", gap(Mode), "(", comma([M, F, integer_to_list(Arity)]), ").\n"].

%% What is called where no clause of a dispatcher fits.
-spec gap(plain_reach:mode()) -> iodata().
gap(Mode) ->
    plain_reach:use({gap, Mode}),
    plain_text:atom(plain_reach:in_mode('gap@', Mode)).

%% @doc An error in text.
-spec failing(plain_reach:mode(), string()) -> iodata().
failing(plain, Reason) -> [case plain_trace:traced() of true -> "exit@m('@0',{"; false -> "exit({" end, Reason, ",[]})"];
failing(_, Reason) -> ["{x,error,", Reason, case plain_trace:traced() of true -> ",[]}"; false -> "}" end].
