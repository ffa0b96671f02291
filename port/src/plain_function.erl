%% @doc One function in one mode, as text.
-module(plain_function).
-export([write/1]).

-type environment() :: plain_tree:environment().
-type written() :: {file:filename(), plain_tree:line(), string(), iodata()}.
-export_type([written/0]).

%% @doc Writes a function. One that can't be translated leaves a refusal.
-spec write(plain_reach:key()) -> ok.
write(Key) ->
    {ok, Origin} = plain_state:find_in(wanted, Key),
    plain_state:put(origin, Origin),
    try write_key(Key)
    catch
        throw:{refuse, File, Line, Sentence} -> refused(plain_state:get(kind), Origin, {File, Line, Sentence});
        error:Reason:Stack -> failed(Reason, Stack)
    end.

%% What can't be translated in the library is reported at the call in the source that reaches it.
-spec refused(plain_modules:kind(), term(), {file:filename(), plain_tree:line(), plain_refusal:sentence()}) -> ok.
refused(Kind, {CallFile, CallLine, {function, Module, Function, Arity, _}}, {File, _, Sentence}) when Kind =/= user ->
    [Reason | _] = string:split(lists:flatten(Sentence), ";"),
    plain_refusal:record(CallFile, CallLine, io_lib:format("~w:~w/~w can't be translated (~ts: ~ts); write what you need of it as a function of your own",
                                                           [Module, Function, Arity, filename:basename(File), Reason]));
refused(_, _, {File, Line, Sentence}) -> plain_refusal:record(File, Line, Sentence).

%% An error of the translator itself is reported as one, at the place where it happened.
-spec failed(term(), [tuple()]) -> ok.
failed(Reason, Stack) ->
    [{Module, Function, _, _} | _] = [Frame || {Name, _, _, _} = Frame <- Stack, lists:prefix("plain_", atom_to_list(Name))],
    plain_refusal:record(plain_state:get(file), plain_state:get(line),
                         io_lib:format("the translator has an error here (~0P in ~w:~w); please report it, and write this function otherwise", [Reason, 8, Module, Function])).

-spec write_key(plain_reach:key()) -> ok.
write_key({function, Module, Function, Arity, Mode}) ->
    {Kind, Core, File} = plain_modules:find(Module, Function, Arity),
    Name = plain_reach:name(Module, Function, Arity),
    stand(#{file => File, module => Module, kind => Kind, base => plain_reach:base(Module, Function), function => {Module, Function, Arity}}),
    plain_state:put(line, 0),
    {fn, _, Variables, Body, Line} = tree({Module, Function, Arity}, Core),
    write(Name, [], {Variables, Body, Line}, #{}, Mode);
write_key({lifted, Name, Mode}) ->
    {ok, #{free := Free, variables := Variables, body := Body, line := Line, env := Env, where := Where}} = plain_state:find_in(lifted, Name),
    stand(Where),
    write(Name, Free, {Variables, Body, Line}, Env, Mode).

-spec stand(#{plain_state:key() => term()}) -> ok.
stand(Where) -> maps:foreach(fun plain_state:put/2, Where).

-spec tree({module(), atom(), arity()}, cerl:cerl()) -> plain_tree:tree().
tree(Key, Core) ->
    case plain_state:find_in(trees, Key) of
        {ok, Tree} -> Tree;
        error ->
            Tree = plain_prune:tree(plain_unique:function(Core)),
            plain_down:seen(Tree),
            plain_state:set_in(trees, Key, Tree),
            Tree
    end.

-spec write(atom(), [plain_tree:tree()], {[plain_tree:variable()], plain_tree:tree(), plain_tree:line()}, environment(), plain_reach:mode()) -> ok.
write(Name, Free, {Variables, Body, Line}, Env, Mode) ->
    Written = plain_reach:in_mode(Name, Mode),
    Arity = length(Free) + length(Variables),
    plain_state:put(mode, Mode),
    plain_state:put(line, Line),
    Text = case Mode =:= plain andalso plain_trace:traced() andalso plain_state:get(kind) =:= user of
        true -> entered(Name, Arity);
        false -> clauses(Written, Free, {Variables, Body, Line}, Env, Mode)
    end,
    keep(Line, Written, Arity + length(plain_trace:line(plain_state:get(kind), Mode)), [Text, ".\n"]).

-spec keep(plain_tree:line(), atom(), arity(), iodata()) -> ok.
keep(Line, Name, Arity, Text) ->
    Label = lists:concat([Name, "/", Arity]),
    plain_state:put(functions, [{plain_state:get(file), Line, Label, Text} | plain_state:get(functions)]).

%% In a traced module a function of the source has one body, whose errors are values; where it is called plainly they end the process.
-spec entered(atom(), arity()) -> iodata().
entered(Name, Parameters) ->
    plain_reach:need(case plain_state:find_in(lifted, Name) =:= error of
        true ->
            {Module, Function, Arity} = plain_state:get(function),
            {function, Module, Function, Arity, traced};
        false -> {lifted, Name, traced}
    end),
    plain_reach:use(raise),
    plain_reach:use(enter),
    Arguments = lists:join(",", ["A" ++ integer_to_list(I) || I <- lists:seq(1, Parameters)]),
    [plain_text:atom(Name), "(", Arguments, ")->enter@(", plain_text:atom(plain_reach:in_mode(Name, traced)), "(", Arguments, "))"].

-spec clauses(atom(), [plain_tree:tree()], {[plain_tree:variable()], plain_tree:tree(), plain_tree:line()}, environment(), plain_reach:mode()) -> iodata().
clauses(Name, Free, {Variables, Body, Line}, Env, Mode) ->
    plain_state:put(names, #{}),
    plain_state:put(shapes, #{}),
    {Named, Inside} = named(Free, Env),
    Kept = plain_trace:line(plain_state:get(kind), Mode) ++ Named,
    Clauses = case heads(Variables, Body, Inside, Mode) of
        {ok, Heads} -> Heads;
        no ->
            {Arguments, Bound} = named(Variables, Inside),
            [{Arguments, [], plain_body:body(Body, Bound, Mode)}]
    end,
    Text = fun({Patterns, Guard, Elements}) ->
        Here = plain_text:variables([Kept, Patterns, Guard]),
        Split = plain_depth:split(plain_inline:body(Elements), Here, Name, fun(Helper, Parameters, Inner) -> keep(Line, Helper, Parameters, Inner) end),
        [plain_text:atom(Name), "(", lists:join(",", [plain_text:expression(P) || P <- Kept ++ Patterns]), ")",
         plain_text:guarded(Guard), "->", plain_text:body(Split)]
    end,
    lists:join(";\n", [Text(Clause) || Clause <- plain_pattern:uncovered(Clauses)]).

-spec named([plain_tree:tree()], environment()) -> {[plain_text:expression()], environment()}.
named(Variables, Env) ->
    lists:mapfoldl(fun(Variable, Known) ->
        Name = plain_names:variable(Variable),
        {Name, Known#{Variable => Name}}
    end, Env, Variables).

%% The clauses of a function whose body is a case of its arguments, where the profile can decide them.
-spec heads([plain_tree:variable()], plain_tree:tree(), environment(), plain_reach:mode()) -> {ok, [tuple()]} | no.
heads(Variables, {'case', Variables, Clauses, _}, Env, Mode) ->
    Used = plain_tree:occurring([{Guard, Body} || {_, Guard, Body} <- Clauses]),
    Wanted = plain_case:up_to_certain(case Mode of plain -> plain_case:without_failure(Clauses, function_clause); _ -> Clauses end),
    Possible = not lists:any(fun(V) -> sets:is_element(V, Used) end, Variables)
        andalso lists:all(fun(Clause) -> plain_pattern:is_plain(Clause, Env) end, Wanted),
    case Possible of
        true -> {ok, [head(Clause, Env, Mode, Named) || Named <- [{plain_state:get(names), plain_state:get(shapes)}], Clause <- Wanted]};
        false -> no
    end;
heads(_, _, _, _) -> no.

%% One clause; each has names of its own.
-spec head(plain_tree:clause(), environment(), plain_reach:mode(), {map(), map()}) -> {[plain_text:expression()], plain_text:guard(), plain_text:body()}.
head({Patterns, Guard, Body}, Env, Mode, {Names, Shapes}) ->
    plain_state:put(names, Names),
    plain_state:put(shapes, Shapes),
    {Written, InBody, Before, InGuard} = plain_pattern:patterns(Patterns, Env, [], {Guard, Body}),
    {ok, Tests} = plain_guard:guard(Guard, InGuard),
    {Written, Tests, Before ++ plain_body:body(Body, InBody, Mode)}.
