%% @doc Starting processes: of funs by their dispatcher, of named functions by their own names.
-module(plain_spawn).
-export([process/4]).

-type environment() :: plain_tree:environment().
-type mode() :: plain_reach:mode().
-type tree() :: plain_tree:tree().

-spec process(atom(), [tree()], environment(), mode()) -> plain_text:body().
process(spawn_opt, [Node | Arguments], Env, Mode) when length(Arguments) =:= 2; length(Arguments) =:= 4 -> on_node(spawn_opt, Node, Arguments, Env, Mode);
process(spawn_opt, Arguments, Env, Mode) ->
    case by_options(lists:last(Arguments)) of
        library when length(Arguments) =:= 2; length(Arguments) =:= 4 -> plain_call:known(proc_lib, spawn_opt, Arguments, Env, Mode);
        library -> process(spawn, lists:droplast(Arguments), Env, Mode);
        Kind -> process(Kind, lists:droplast(Arguments), Env, Mode)
    end;
process(Kind, [{fn, Identity, [], Body, Line}], Env, Mode) ->
    Name = plain_value:lifted_name({fn, Identity}),
    Free = plain_value:lift(Name, [], Body, Line, Env, Body),
    plain_reach:need({lifted, Name, plain}),
    plain_reach:export(Name, length(Free)),
    [started(Kind, Name, lists:foldr(fun(X, Tail) -> {cons, plain_value:value(X, Env), Tail} end, nil, Free), Mode)];
process(Kind, [{fref, Function, 0}], _, Mode) ->
    {call, Name, _} = plain_call:function(plain_state:get(module), Function, 0, [], plain),
    plain_reach:export(Name, 0),
    [started(Kind, Name, nil, Mode)];
process(Kind, [Fun], Env, Mode) ->
    Dispatcher = plain_reach:dispatcher(0, plain),
    plain_reach:export(Dispatcher, 1),
    [started(Kind, Dispatcher, {cons, plain_value:value(Fun, Env), nil}, Mode)];
process(Kind, [Module, Function, Arguments], Env, Mode) ->
    case {plain_call:an_atom(Module, Env), plain_call:an_atom(Function, Env), plain_tree:proper(Arguments)} of
        {{ok, M}, {ok, F}, {ok, Trees}} -> named(Kind, {M, F, length(Trees)}, Arguments, Trees, Env, Mode);
        {_, _, {ok, Trees}} ->
            {Name, Named} = plain_call:dispatched(Module, Function, length(Trees), Env, plain),
            plain_reach:export(Name, length(Trees) + length(Named)),
            [started(Kind, Name, lists:foldr(fun(X, Tail) -> {cons, plain_value:value(X, Env), Tail} end, plain_value:value(Arguments, Env), Named), Mode)];
        _ ->
            Name = plain_reach:dispatcher(apply_function, plain),
            plain_reach:export(Name, 3),
            All = lists:foldr(fun(X, Tail) -> {cons, plain_value:value(X, Env), Tail} end, nil, [Module, Function, Arguments]),
            [started(Kind, Name, All, Mode)]
    end;
process(Kind, [Node | Arguments], Env, Mode) when length(Arguments) =:= 1; length(Arguments) =:= 3 -> on_node(Kind, Node, Arguments, Env, Mode);
process(Kind, Arguments, _, _) -> plain_refusal:refuse("~w/~w has no translation; start the process otherwise", [Kind, length(Arguments)]).

%% There is one node: who names another one is refused where a run reaches it.
-spec on_node(atom(), tree(), [tree()], environment(), mode()) -> plain_text:body().
on_node(Kind, Node, Arguments, Env, Mode) ->
    Own = {{atom, nonode@nohost}, [], process(Kind, Arguments, Env, Mode)},
    [{'case', plain_value:value(Node, Env), [Own, {{var, "_"}, [], [plain_call:gap(erlang, Kind, length(Arguments) + 1)]}]}].

%% A process of a function by its name. What is no function of the text is called by a fun, which then says so.
-spec named(atom(), {module(), atom(), arity()}, tree(), [tree()], environment(), mode()) -> plain_text:body().
named(Kind, {Module, Function, Arity}, Arguments, Trees, Env, Mode) ->
    case Module =/= erlang andalso not plain_modules:hidden(Module, Function, Arity) andalso plain_modules:find(Module, Function, Arity) =/= none of
        true ->
            {call, Name, _} = plain_call:function(Module, Function, Arity, [], plain),
            plain_reach:export(Name, Arity),
            [started(Kind, Name, plain_value:value(Arguments, Env), Mode)];
        false ->
            Line = plain_state:get(line),
            process(Kind, [{fn, plain_state:fresh(), [], {call, {lit, Module, Line}, {lit, Function, Line}, Trees, Line}, Line}], Env, Mode)
    end.

-spec started(atom(), atom(), plain_text:expression(), mode()) -> plain_text:expression().
started(Kind, Name, Arguments, Mode) ->
    Started = plain_trace:action(Kind, [{atom, plain_state:get(main)}, {atom, Name}, Arguments]),
    Tied = plain_services:tied() andalso not lists:member(plain_state:get(module), plain_services:all()),
    plain_body:returned(case Kind of
        spawn_link when Tied -> plain_call:function(pf_ties, spawned, 1, [Started], plain);
        spawn_monitor when Tied -> plain_call:function(pf_ties, watched, 1, [Started], plain);
        _ -> Started
    end, Mode).

%% What a list of options means; where it isn't seen, or has both a link and a monitor, the library looks at it.
-spec by_options(tree()) -> spawn | spawn_link | spawn_monitor | library.
by_options({lit, Options, _}) when is_list(Options) ->
    Odd = [Option || Option <- Options, not lists:member(Option, [link, monitor]), not lists:member(Option, [{priority, P} || P <- [low, normal, high]])],
    case {lists:member(link, Options), lists:member(monitor, Options)} of
        _ when Odd =/= [] -> library;
        {true, false} -> spawn_link;
        {false, false} -> spawn;
        {false, true} -> spawn_monitor;
        {true, true} -> library
    end;
by_options(_) -> library.
