%% @doc Functions of the module erlang: those that the profile has, those that become something of it, and those of the library.
-module(plain_builtin).
-export([call/4, call/5]).

-type environment() :: plain_tree:environment().
-type mode() :: plain_reach:mode().
-type tree() :: plain_tree:tree().

-spec call(atom(), [tree()], environment(), mode()) -> plain_text:body().
call(Function, Arguments, Env, Mode) ->
    Floats = [X || {lit, X, _} <- Arguments, is_float(X)],
    case plain_state:get(kind) =/= user andalso Floats of
        [Float | _] ->
            plain_refusal:note("the float ~w; a process that comes here ends with {refused,..}", [Float]),
            [plain_call:gap(erlang, float, 1)];
        _ -> call(Function, length(Arguments), Arguments, Env, Mode)
    end.

%% @doc A call of erlang by its name and number of arguments.
-spec call(atom(), arity(), [tree()], environment(), mode()) -> plain_text:body().
call(exit, 1, [Reason], Env, Mode) -> [plain_body:failure(exit, plain_value:value(Reason, Env), Mode)];
call(error, _, [Reason | _], Env, Mode) -> [plain_body:failure(error, plain_value:value(Reason, Env), Mode)];
call(throw, 1, [Reason], Env, Mode) -> [plain_body:failure(throw, plain_value:value(Reason, Env), Mode)];
call(raise, 3, [Class, Reason, Stack], Env, Mode) -> raised(plain_value:values([Class, Reason, Stack], Env), Mode);
call('!', 2, Arguments, Env, checked) -> [plain_call:checked('!', plain_value:values(Arguments, Env))];
call('!', 2, Arguments, Env, Mode) -> [plain_body:returned(plain_trace:action('!', plain_value:values(Arguments, Env)), Mode)];
call(send, 2, Arguments, Env, Mode) -> call('!', 2, Arguments, Env, Mode);
call(send, 3, [To, Message, _], Env, Mode) ->
    Line = plain_state:get(line),
    plain_body:body({'let', [], {call, {lit, erlang, Line}, {lit, '!', Line}, [To, Message], Line}, {lit, ok, Line}}, Env, Mode);
call(Function, _, Arguments, Env, Mode) when Function =:= spawn; Function =:= spawn_link; Function =:= spawn_monitor; Function =:= spawn_opt ->
    plain_spawn:process(Function, Arguments, Env, Mode);
call(apply, _, Arguments, Env, Mode) -> applied(Arguments, Env, Mode);
call(Function, 1, [Argument], Env, Mode) when Function =:= atom_to_list; Function =:= list_to_atom; Function =:= list_to_existing_atom ->
    plain_refusal:note_once(atoms, "atoms and their texts are those of the program; list_to_atom of others is refused"),
    plain_reach:use({atoms, Function, Mode}),
    [{call, plain_reach:in_mode(list_to_atom(atom_to_list(Function) ++ "@"), Mode), [plain_value:value(Argument, Env)]}];
call(make_fun, 3, [{lit, Module, _}, {lit, Function, _}, {lit, Arity, _}], _, Mode) ->
    [plain_body:returned(plain_value:external_fun(Module, Function, Arity), Mode)];
call(make_fun, 3, [Module, Function, {lit, Arity, _}], Env, Mode) ->
    Line = plain_state:get(line),
    Variables = [{v, {'A', plain_state:fresh()}} || _ <- lists:seq(1, Arity)],
    plain_body:body({fn, plain_state:fresh(), Variables, {call, Module, Function, Variables, Line}, Line}, Env, Mode);
call(process_flag, 2, [{lit, trap_exit, _}, Flag] = Arguments, Env, Mode) ->
    case plain_services:tied() of
        true -> [plain_call:function(pf_ties, trap, 1, [plain_value:value(Flag, Env)], Mode)];
        false -> [plain_body:returned(plain_trace:action(process_flag, plain_value:values(Arguments, Env)), Mode)]
    end;
call(register, 2, Arguments, Env, Mode) -> registered(plain_value:values(Arguments, Env), Mode);
call(function_exported, 3, [Module, {lit, Function, _}, {lit, Arity, _}], Env, Mode) ->
    Known = [{{atom, Name}, [], [{atom, true}]} || Name <- plain_reach:exporting(Function, Arity)],
    [plain_body:returned({'case', plain_value:value(Module, Env), Known ++ [{{var, "_"}, [], [{atom, false}]}]}, Mode)];
call(monitor, 2, [{lit, process, _}, Object] = Arguments, Env, Mode) ->
    plain_down:monitored(Object, Env),
    is_tuple(Object) andalso element(1, Object) =:= lit
        andalso plain_refusal:note_once(monitor, "a monitor of a name is whereis and then a monitor of the pid: the name may pass to another between"),
    operation(monitor, 2, plain_value:values(Arguments, Env), Mode);
call(demonitor, 2, [Reference, {lit, Options, _}] = Arguments, Env, Mode) when Options =:= []; Options =:= [flush] ->
    case plain_services:tied() of
        true when Options =:= [] -> call(demonitor, 1, [Reference], Env, Mode);
        true -> [plain_call:function(pf_ties, demonitor, 2, plain_value:values(Arguments, Env), Mode)];
        false -> [plain_body:returned(plain_trace:action(demonitor, plain_value:values(Arguments, Env)), Mode)]
    end;
call(Function, 1, [Argument], Env, Mode) when Function =:= link; Function =:= unlink; Function =:= demonitor ->
    case plain_services:tied() of
        true -> [plain_call:function(pf_ties, Function, 1, [plain_value:value(Argument, Env)], Mode)];
        false -> operation(Function, 1, [plain_value:value(Argument, Env)], Mode)
    end;
call(setelement, 3, [{lit, Index, _}, {v, _} = Tuple, Value], Env, Mode) when is_integer(Index) -> setelement(Index, Tuple, Value, Env, Mode);
call(Function, Arity, Arguments, Env, Mode) ->
    note(Function),
    lacks(Function, Arity, Arguments),
    operation(Function, Arity, plain_value:values(Arguments, Env), Mode).

-spec raised([plain_text:expression()], mode()) -> plain_text:body().
raised([Class, Reason, _], plain) ->
    plain_reach:use(raise),
    [{call, 'raise@', [Class, Reason]}];
raised([Class, Reason, Stack], _) -> [plain_trace:thrown(Class, Reason, Stack)].

-spec applied([tree()], environment(), mode()) -> plain_text:body().
applied([Fun, Arguments], Env, Mode) ->
    case plain_tree:proper(Arguments) of
        {ok, Trees} -> plain_call:apply({apply, Fun, Trees, plain_state:get(line)}, Env, Mode);
        no -> [{call, plain_reach:dispatcher(apply_fun, Mode), plain_value:values([Fun, Arguments], Env)}]
    end;
applied([Module, Function, Arguments], Env, Mode) ->
    case plain_tree:proper(Arguments) of
        {ok, Trees} -> plain_call:call(Module, Function, Trees, plain_state:get(line), Env, Mode);
        no ->
            case {plain_call:an_atom(Module, Env), plain_call:an_atom(Function, Env)} of
                {{ok, M}, {ok, F}} -> plain_body:body(by_length(M, F, Arguments), Env, Mode);
                _ -> [{call, plain_reach:dispatcher(apply_function, Mode), plain_value:values([Module, Function, Arguments], Env)}]
            end
    end.

%% A call of a known function with a list of arguments whose length a run knows: a clause for each length that the function has.
-spec by_length(module(), atom(), tree()) -> tree().
by_length(Module, Function, Arguments) ->
    Line = plain_state:get(line),
    Exports = case lists:member(Module, plain_state:get(users)) of
        true -> plain_modules:exported(Module, user);
        false -> plain_modules:of_otp(Module)
    end,
    Literal = fun(Term) -> {lit, Term, Line} end,
    Clause = fun(Arity) ->
        Variables = [{v, {'A', plain_state:fresh()}} || _ <- lists:seq(1, Arity)],
        {[lists:foldr(fun(V, Tail) -> {cons, V, Tail} end, Literal([]), Variables)], Literal(true), {call, Literal(Module), Literal(Function), Variables, Line}}
    end,
    Arities = lists:usort([Arity || {Name, Arity} <- Exports, Name =:= Function]),
    Else = case lists:member(Module, plain_state:get(users)) of
        true -> {call, Literal(erlang), Literal(error), [Literal(undef)], Line};
        false -> {call, Literal(prim), Literal(raw), [Literal(exit), Literal({refused, Module, Function, any})], Line}
    end,
    {'case', [Arguments], [Clause(Arity) || Arity <- Arities] ++ [{[{v, {'_', plain_state:fresh()}}], Literal(true), Else}], Line}.

%% Where a refusal of a name has to be a value, all names go through one process.
-spec registered([plain_text:expression()], mode()) -> plain_text:body().
registered(Arguments, Mode) ->
    case Mode =:= checked orelse lists:member(pf_names, plain_services:begun()) of
        true ->
            plain_refusal:note_once(names, "register within try goes through one process for all names, so that a refusal is a value"),
            [plain_call:function(erlang, register, 2, Arguments, Mode)];
        false -> [plain_body:returned(plain_trace:action(register, Arguments), Mode)]
    end.

%% An update of a record: a new tuple where the old one is known.
-spec setelement(pos_integer(), plain_tree:variable(), tree(), environment(), mode()) -> plain_text:body().
setelement(Index, Tuple, Value, Env, Mode) ->
    Shapes = plain_state:get(shapes),
    Known = maps:get(Tuple, Shapes, maps:get(maps:get(Tuple, Env), Shapes, [])),
    case Index >= 1 andalso Index =< length(Known) of
        true ->
            {Before, [_ | After]} = lists:split(Index - 1, Known),
            [plain_body:returned({tuple, Before ++ [plain_value:value(Value, Env) | After]}, Mode)];
        false ->
            [plain_call:function(erlang, setelement, 3, [{int, Index} | plain_value:values([Tuple, Value], Env)], Mode)]
    end.

%% Operators and functions whose arguments are values.
-spec operation(atom(), arity(), [plain_text:expression()], mode()) -> plain_text:body().
operation('++', 2, [A, B], plain) -> [{op, '++', A, B}];
operation(Function, Arity, Arguments, Mode) ->
    Floats = plain_float:needs(Function, Arguments),
    Itself = not lists:member(Function, ['and', 'or', 'xor', 'not', size, byte_size]) andalso plain_guard:pure(Function, Arguments),
    Direct = lists:member({Function, Arity}, direct()),
    Checked = Mode =/= plain andalso lists:member({Function, Arity}, may_fail()),
    case {Checked, Direct, Itself} of
        _ when Floats -> [plain_call:function(pf_float, Function, Arity, Arguments, Mode)];
        {true, false, _} -> [plain_call:checked(Function, Arguments)];
        {true, true, _} when Mode =:= checked -> [plain_call:checked(Function, Arguments)];
        {_, true, _} -> [plain_body:returned(plain_trace:action(Function, Arguments), Mode)];
        {_, false, Expression} when is_tuple(Expression) -> [plain_body:returned(Expression, Mode)];
        _ -> library(Function, Arity, Arguments, Mode)
    end.

%% Actions of the profile under their own names.
-spec direct() -> [{atom(), arity()}].
direct() -> [{link, 1}, {unlink, 1}, {demonitor, 1}, {unregister, 1}, {whereis, 1}, {make_ref, 0}, {exit, 2}].

%% What may raise, and has a form in the prelude that answers an error as a value.
-spec may_fail() -> [{atom(), arity()}].
may_fail() ->
    [{'+', 2}, {'-', 2}, {'*', 2}, {'div', 2}, {'rem', 2}, {'-', 1}, {'+', 1}, {'++', 2}, {hd, 1}, {tl, 1}, {length, 1}, {element, 2},
     {tuple_size, 1}, {link, 1}, {unlink, 1}, {unregister, 1}].

-spec library(atom(), arity(), [plain_text:expression()], mode()) -> plain_text:body().
library(Function, Arity, Arguments, Mode) ->
    case plain_modules:find(erlang, Function, Arity) of
        none -> plain_call:unknown(erlang, Function, Arity, Mode);
        _ -> [plain_call:function(erlang, Function, Arity, Arguments, Mode)]
    end.

%% Refuses arguments that a function of the library is seen to lack. What a process is asked in a list is asked one by one.
-spec lacks(atom(), arity(), [tree()]) -> ok.
lacks(process_info, 2, [P, {lit, [_ | _] = Items, Line}]) -> lists:foreach(fun(Item) -> lacks(process_info, 2, [P, {lit, Item, Line}]) end, Items);
lacks(Function, Arity, Arguments) ->
    case plain_modules:find(erlang, Function, Arity) of
        {lib, Core, _} -> plain_lacks:refuse(erlang, Function, Core, Arguments);
        _ -> ok
    end.

%% Notes on the encodings of functions of erlang.
-spec note(atom()) -> ok.
note(Function) when Function =:= put; Function =:= get; Function =:= erase ->
    plain_refusal:note_once(dictionary, "process dictionaries are kept by one process, and each access is a message and its answer");
note(Function) when Function =:= send_after; Function =:= start_timer; Function =:= cancel_timer; Function =:= monotonic_time; Function =:= system_time;
                    Function =:= timestamp; Function =:= unique_integer; Function =:= read_timer ->
    plain_encodings:times();
note(process_flag) -> plain_refusal:note_once(flags, "of the flags of a process only trap_exit has an effect");
note(Function) when Function =:= nodes; Function =:= is_alive -> plain_refusal:note_once(nodes, "there is one node; nothing is known of others");
note(Function) when Function =:= garbage_collect; Function =:= yield; Function =:= display ->
    plain_refusal:note_once(machine, "garbage_collect, yield and display do nothing");
note(Function) when Function =:= universaltime; Function =:= localtime; Function =:= date; Function =:= time; Function =:= now ->
    plain_refusal:note_once(day, "a run begins with the year 1970, and its place has the time of UTC"),
    plain_encodings:times();
note(process_info) -> plain_refusal:note_once(info, "process_info of another process is answered where nobody else can go, and then who lives waits");
note(is_process_alive) -> plain_refusal:note_once(alive, "is_process_alive of another process is answered where nobody else can go");
note(group_leader) -> plain_refusal:note_once(leader, "the group leader is one process for all, which drops output");
note(_) -> ok.
