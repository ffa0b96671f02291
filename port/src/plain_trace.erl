%% @doc The traced form of a module, by which a run is reported in the words of its source. It does what the plain one does, by the same
%% choices, with two things more: before each action is a look for a name that nobody has, which names the place as an event
%% of its own; and an error carries its place as its stack trace. Where that is asked for, the error of a function that has no clause for its
%% arguments carries them too.
-module(plain_trace).
-export([line/2, line_of_call/2, ended/2, traced/0, with_arguments/0, action/2, mark/0, marked/1, here/0, no_clause/1, thrown/2, thrown/3, is_thrown/1, caught/3, stack_of/1, raw/2, raw_parts/1, begin_clause/3, begun/3]).

%% @doc Whether the traced form is written.
-spec traced() -> boolean().
traced() -> maps:get(traced, plain_state:get(options)).

%% @doc Whether the error of a function without a clause carries its arguments here.
-spec with_arguments() -> boolean().
with_arguments() -> traced() andalso plain_state:get(kind) =:= user andalso maps:get(arguments, plain_state:get(options)).

%% @doc The error of a function that has no clause for these arguments: after the mark of its place are the arguments.
-spec no_clause([plain_text:expression()]) -> plain_text:expression().
no_clause(Arguments) -> thrown({atom, error}, {atom, function_clause}, {cons, mark(), {cons, {tuple, Arguments}, nil}}).

%% @doc An action of the profile: a call, or `!'.
-spec action(atom(), [plain_text:expression()]) -> plain_text:expression().
action(Function, Arguments) ->
    case {traced(), Function, Arguments} of
        {true, _, _} ->
            plain_reach:use({marked, Function, length(Arguments)}),
            {call, helper(Function), [mark() | Arguments]};
        {false, '!', [To, Message]} -> {op, '!', To, Message};
        {false, _, _} -> {call, Function, Arguments}
    end.

-spec helper(atom()) -> atom().
helper('!') -> 'send@m';
helper(Function) -> list_to_atom(atom_to_list(Function) ++ "@m").

%% @doc The mark of the place where the translation is. A function of the library has that of the call in the source
%% which it serves, as its first argument.
-spec mark() -> plain_text:expression().
mark() ->
    case line(plain_state:get(kind), plain_state:get(mode)) of
        [Line] -> Line;
        [] -> mark(plain_state:get(kind))
    end.

%% @doc The parameter of a function of this kind in this mode that has the mark of a call, where it has one.
-spec line(plain_modules:kind(), plain_reach:mode()) -> [plain_text:expression()].
line(Kind, Mode) when Kind =/= user, Mode =/= plain -> [{var, "Line@"} || traced()];
line(_, _) -> [].

%% @doc The argument for this parameter.
-spec line_of_call(plain_modules:kind(), plain_reach:mode()) -> [plain_text:expression()].
line_of_call(Kind, Mode) ->
    case {line(Kind, Mode), plain_state:get(kind)} of
        {[], _} -> [];
        {[_], user} -> [mark(called)];
        {[_], _} -> [mark()]
    end.

-spec mark(plain_modules:kind() | called) -> plain_text:expression().
mark(Kind) ->
    Place = {Kind, plain_state:get(file), plain_state:get(line), plain_state:get(function)},
    Number = case plain_state:find_in(marks, Place) of
        {ok, Known} -> Known;
        error ->
            New = map_size(plain_state:get(marks)) + 1,
            plain_state:set_in(marks, Place, New),
            New
    end,
    {atom, list_to_atom("@" ++ integer_to_list(Number))}.

%% @doc What comes before a `receive'.
-spec marked(plain_text:body()) -> plain_text:body().
marked(Body) ->
    case traced() of
        true -> [{call, whereis, [mark()]} | Body];
        false -> Body
    end.

%% @doc An error as a value: its class and reason, and in the traced form its place.
-spec thrown(plain_text:expression(), plain_text:expression()) -> plain_text:expression().
thrown({atom, error} = Class, Reason) ->
    case short_error(Reason) of
        {Name, Arguments} ->
            plain_reach:use({error, Name, length(Arguments)}),
            {call, Name, Arguments};
        none -> thrown(Class, Reason, here())
    end;
thrown(Class, Reason) -> thrown(Class, Reason, here()).

%% Where names are short the errors that many functions have are functions too.
-spec short_error(plain_text:expression()) -> {atom(), [plain_text:expression()]} | none.
short_error(Reason) ->
    case {plain_state:get(short) andalso not traced(), Reason} of
        {true, {atom, Atom}} when Atom =:= function_clause; Atom =:= badarg -> {list_to_atom("e@" ++ [hd(atom_to_list(Atom))]), []};
        {true, {tuple, [{atom, case_clause}, Value]}} -> {e@c, [Value]};
        {true, {tuple, [{atom, badmatch}, Value]}} -> {e@m, [Value]};
        _ -> none
    end.

%% @doc The end by an error of a kind and a value, as a call of a function where names are short.
-spec ended(atom(), plain_text:expression()) -> plain_text:expression() | none.
ended(Kind, Value) ->
    case plain_state:get(short) andalso not traced() of
        true ->
            plain_reach:use({ended, Kind}),
            {call, plain_reach:short_name({ended, Kind}), [Value]};
        false -> none
    end.

%% @doc Whether an expression is such an error, which no value comes of.
-spec is_thrown(plain_text:expression()) -> boolean().
is_thrown({tuple, [{atom, x} | _]}) -> true;
is_thrown({call, Name, _}) -> lists:member(Name, [e@f, e@b, e@c, e@m]);
is_thrown(_) -> false.

-spec thrown(plain_text:expression(), plain_text:expression(), plain_text:expression()) -> plain_text:expression().
thrown(Class, Reason, Stack) -> {tuple, [{atom, x}, Class, Reason | [Stack || traced()]]}.

%% @doc The place as a stack trace: one mark, or none in the library.
-spec here() -> plain_text:expression().
here() ->
    case traced() andalso plain_state:get(kind) =:= user of
        true -> {cons, mark(), nil};
        false -> nil
    end.

%% @doc The pattern of such a value.
-spec caught(plain_text:expression(), plain_text:expression(), plain_text:expression()) -> plain_text:expression().
caught(Class, Reason, Stack) -> thrown(Class, Reason, Stack).

%% @doc What a stack trace is bound to.
-spec stack_of(plain_text:expression()) -> plain_text:expression().
stack_of(Variable) ->
    case traced() of
        true -> Variable;
        false -> nil
    end.

%% @doc What a handler has of an error beside its reason, to raise it again: its class, and in the traced form its place.
-spec raw(plain_text:expression(), plain_text:expression()) -> plain_text:expression().
raw(Class, Stack) ->
    case traced() of
        true -> {tuple, [Class, Stack]};
        false -> Class
    end.

%% @doc The class and the stack trace in such a value.
-spec raw_parts(plain_text:expression()) -> {plain_text:expression(), plain_text:expression()}.
raw_parts(Raw) ->
    case {traced(), Raw} of
        {true, {tuple, [Class, Stack]}} -> {Class, Stack};
        {true, _} -> {{call, element, [{int, 1}, Raw]}, {call, element, [{int, 2}, Raw]}};
        {false, _} -> {Raw, nil}
    end.

%% @doc The beginning of a process in the traced form: which fun it runs, said by a mark.
-spec begin_clause(atom(), [term()], plain_text:expression()) -> iodata().
begin_clause(Name, Free, Mark) ->
    Variables = ["F" ++ integer_to_list(I) || I <- lists:seq(1, length(Free))],
    ["begin@({'#fun',_,", plain_text:atom(Name), [[",", V] || V <- Variables], "})->", begun(Variables, Free, Mark), ";\n"].

%% @doc The mark of what a fun with such free variables runs: the fun or the module that it was given, or itself.
-spec begun([string()], [term()], plain_text:expression()) -> iodata().
begun(Variables, Free, Mark) ->
    Inner = [Variable || {Variable, {v, {Written, _}}} <- lists:zip(Variables, Free), Written =:= 'F'],
    Module = [Variable || {Variable, {v, {Written, _}}} <- lists:zip(Variables, Free), Written =:= 'Mod'],
    Own = ["whereis(", plain_text:expression(Mark), ")"],
    case {Inner, Module} of
        {[Fun | _], _} -> ["begin@(", Fun, ")"];
        {[], [M | _]} -> ["case ", M, " of {_,X}->whereis(X);", M, " when is_atom(", M, ")->whereis(", M, ");_->", Own, " end"];
        {[], []} -> Own
    end.
