%% @doc Calls: of functions, of funs, and of modules that only a run knows.
-module(plain_call).
-export([call/6, apply/3, function/5, unknown/4, checked/2, known/5, dispatched/5, an_atom/2, gap/3]).

-type environment() :: plain_tree:environment().
-type mode() :: plain_reach:mode().
-type tree() :: plain_tree:tree().

%% @doc `M:F(..)'.
-spec call(tree(), tree(), [tree()], plain_tree:line(), environment(), mode()) -> plain_text:body().
call(Module, Function, Arguments, Line, Env, Mode) ->
    Line > 0 andalso plain_state:put(line, Line),
    case {an_atom(Module, Env), an_atom(Function, Env)} of
        {{ok, M}, {ok, F}} -> known(M, F, Arguments, Env, Mode);
        _ ->
            {Dispatcher, Named} = dispatched(Module, Function, length(Arguments), Env, Mode),
            [placed({call, Dispatcher, plain_value:values(Named ++ Arguments, Env)}, Mode)]
    end.

%% @doc The dispatcher of a call of which the module, the function or both are known to a run alone, and those of them that it takes.
-spec dispatched(tree(), tree(), arity(), environment(), mode()) -> {atom(), [tree()]}.
dispatched(Module, Function, Arity, Env, Mode) ->
    {M, First} = case an_atom(Module, Env) of {ok, A} -> {A, []}; no -> {any, [Module]} end,
    {F, Second} = case an_atom(Function, Env) of {ok, B} -> {B, []}; no -> {any, [Function]} end,
    {plain_reach:remote_dispatcher(M, F, Arity, Mode), First ++ Second}.

%% @doc The atom that a tree is, or that a variable is known to be.
-spec an_atom(tree(), environment()) -> {ok, atom()} | no.
an_atom({lit, Atom, _}, _) when is_atom(Atom) -> {ok, Atom};
an_atom({v, _} = Variable, Env) ->
    case Env of
        #{Variable := {atom, Atom}} -> {ok, Atom};
        _ -> no
    end;
an_atom(_, _) -> no.

%% @doc A call of a function of a known module. The text of a term raises nothing, so its functions are there in plain
%% mode alone.
-spec known(module(), atom(), [tree()], environment(), mode()) -> plain_text:body().
known(erlang, Function, Arguments, Env, Mode) -> plain_builtin:call(Function, Arguments, Env, Mode);
known(prim, raw, [{lit, Function, _} | Arguments], Env, Mode) ->
    [plain_body:returned(plain_trace:action(Function, plain_value:values(Arguments, Env)), Mode)];
known(prim, arm, [Time, Reference], Env, Mode) -> [plain_body:returned(plain_receive:armed(plain_value:values([Time, Reference], Env)), Mode)];
known(prim, flush, [Time, Reference], Env, Mode) -> [plain_body:returned({call, 'flush@', plain_value:values([Time, Reference], Env)}, Mode)];
known(prim, named, [Fun], Env, Mode) ->
    [plain_body:returned({call, plain_reach:dispatcher(fun_name, plain), [plain_value:value(Fun, Env)]}, Mode)];
known(Module, Function, Arguments, Env, Mode)
  when Module =:= pf_pretty, Function =:= print; Module =:= pf_format, Function =:= write ->
    Arity = length(Arguments),
    plain_reach:need({function, Module, Function, Arity, plain}),
    [plain_body:returned({call, plain_reach:name(Module, Function, Arity), plain_value:values(Arguments, Env)}, Mode)];
known(code, ensure_loaded, [Module], Env, Mode) -> loaded(Module, lists:member(code, plain_state:get(users)), Env, Mode);
known(math, Function, Arguments, Env, Mode) ->
    Numbers = [X || {lit, X, _} <- Arguments, is_number(X)],
    Known = plain_state:get(kind) =:= user andalso not lists:member(math, plain_state:get(users))
        andalso length(Numbers) =:= length(Arguments) andalso erlang:function_exported(math, Function, length(Arguments)),
    case Known andalso computed(Function, Numbers) of
        false -> of_module(math, Function, Arguments, Env, Mode);
        {ok, Float} -> [plain_body:returned(plain_value:literal(Float, plain_state:get(line)), Mode)];
        {error, Reason} -> [plain_body:failure(error, {atom, Reason}, Mode)]
    end;
known(Module, Function, Arguments, Env, Mode) -> of_module(Module, Function, Arguments, Env, Mode).

%% What Erlang makes of numbers that stand in the source.
-spec computed(atom(), [number()]) -> {ok, float()} | {error, atom()}.
computed(Function, Numbers) ->
    try {ok, erlang:apply(math, Function, Numbers)}
    catch error:Reason -> {error, Reason}
    end.

%% The code that is there is that of the files and of the library: any other module is refused where a run alone knows its name.
-spec loaded(tree(), boolean(), environment(), mode()) -> plain_text:body().
loaded(Module, true, Env, Mode) -> of_module(code, ensure_loaded, [Module], Env, Mode);
loaded(Module, false, Env, Mode) ->
    There = fun(Name) -> {tuple, [{atom, module}, {atom, Name}]} end,
    case an_atom(Module, Env) of
        {ok, Name} ->
            Known = Name =:= erlang orelse lists:member(Name, plain_state:get(users)) orelse plain_modules:in_library(Name),
            [plain_body:returned(case Known of true -> There(Name); false -> {tuple, [{atom, error}, {atom, nofile}]} end, Mode)];
        no ->
            Clauses = [{{atom, Name}, [], [There(Name)]} || Name <- plain_state:get(users)] ++ [{{var, "_"}, [], [gap(code, ensure_loaded, 1)]}],
            [plain_body:returned({'case', plain_value:value(Module, Env), Clauses}, Mode)]
    end.

-spec of_module(module(), atom(), [tree()], environment(), mode()) -> plain_text:body().
of_module(Module, Function, Arguments, Env, Mode) ->
    Arity = length(Arguments),
    plain_encodings:note(Module, Function, Arity),
    case {plain_modules:hidden(Module, Function, Arity), plain_modules:find(Module, Function, Arity)} of
        {true, _} ->
            plain_refusal:note("~w:~w/~w isn't exported, so this call raises undef", [Module, Function, Arity]),
            [plain_body:failure(error, {atom, undef}, Mode)];
        {false, none} -> unknown(Module, Function, Arity, Mode);
        {false, {lib, Core, _}} ->
            plain_lacks:refuse(Module, Function, Core, Arguments),
            [function(Module, Function, Arity, plain_value:values(Arguments, Env), Mode)];
        {false, _} -> [function(Module, Function, Arity, plain_value:values(Arguments, Env), Mode)]
    end.

%% @doc The end of a process that comes to what the translator doesn't have. Nothing catches it, so that it is never taken for an error of the program.
-spec gap(module(), atom(), arity()) -> plain_text:expression().
gap(Module, Function, Arity) -> plain_trace:action(exit, [{tuple, [{atom, refused}, {atom, Module}, {atom, Function}, {int, Arity}]}]).

%% @doc A call of a local function, or of a fun.
-spec apply(tree(), environment(), mode()) -> plain_text:body().
apply({apply, {fref, Function, Arity}, Arguments, Line}, Env, Mode) ->
    Line > 0 andalso plain_state:put(line, Line),
    [function(plain_state:get(module), Function, Arity, plain_value:values(Arguments, Env), Mode)];
apply({apply, {lref, _} = Function, Arguments, _}, Env, Mode) ->
    {Name, Free} = maps:get(Function, Env),
    plain_reach:need({lifted, Name, Mode}),
    Line = plain_trace:line(plain_state:get(kind), Mode),
    [{call, plain_reach:in_mode(Name, Mode), Line ++ plain_value:values(Free ++ Arguments, Env)}];
apply({apply, Fun, Arguments, Line}, Env, Mode) ->
    Line > 0 andalso plain_state:put(line, Line),
    [placed({call, plain_reach:dispatcher(length(Arguments), Mode), plain_value:values([Fun | Arguments], Env)}, Mode)].

%% @doc The call of a function that is there.
-spec function(module(), atom(), arity(), [plain_text:expression()], mode()) -> plain_text:expression().
function(Module, Function, Arity, Arguments, Mode) ->
    case plain_modules:find(Module, Function, Arity) of
        none -> plain_refusal:refuse("there is no function ~w:~w/~w; write it, or name its file", [Module, Function, Arity]);
        {Kind, _, _} ->
            plain_reach:need({function, Module, Function, Arity, Mode}),
            Line = plain_trace:line_of_call(Kind, Mode),
            Call = {call, plain_reach:in_mode(plain_reach:name(Module, Function, Arity), Mode), Line ++ Arguments},
            case Kind of
                user -> Call;
                _ -> placed(Call, Mode)
            end
    end.

%% An error that comes out of the library is placed where the source called it.
-spec placed(plain_text:expression(), mode()) -> plain_text:expression().
placed(Call, plain) -> Call;
placed(Call, _) ->
    case plain_trace:traced() andalso plain_state:get(kind) =:= user of
        true ->
            plain_reach:use(at),
            {call, 'at@', [plain_trace:here(), Call]};
        false -> Call
    end.

%% @doc An operation of the prelude, which answers an error as a value.
-spec checked(atom(), [plain_text:expression()]) -> plain_text:expression().
checked(Operation, Arguments) ->
    plain_reach:use({checked, Operation, length(Arguments)}),
    Acts = lists:member(Operation, ['!', unregister, link, unlink]),
    Place = [plain_trace:here() || plain_trace:traced()] ++ [plain_trace:mark() || Acts, plain_trace:traced()],
    {call, list_to_atom("c@" ++ atom_to_list(Operation)), Place ++ Arguments}.

%% @doc A function that the translator doesn't have: refused in a source, a note in the library.
-spec unknown(module(), atom(), arity(), mode()) -> plain_text:body().
unknown(Module, Function, Arity, Mode) ->
    Lax = maps:get(lax, plain_state:get(options)),
    Sentence = io_lib:format("~w:~w/~w ~s", [Module, Function, Arity, plain_refusal:why(Module, Function)]),
    case plain_state:get(kind) of
        user when not Lax ->
            plain_refusal:record(plain_state:get(file), plain_state:get(line), Sentence),
            [plain_body:failure(error, {atom, refused}, Mode)];
        _ ->
            plain_refusal:note("~ts; a process that comes here ends with {refused,..}", [Sentence]),
            [gap(Module, Function, Arity)]
    end.
