%% The text of a crash report, after OTP 25. A way is {Encoding, Depth}, by which terms are printed; a depth below 0 is
%% none.
-module(pf_report).
-compile([export_all, nowarn_export_all]).
-spec format(term(), term(), pos_integer() | unlimited) -> string().
format(Report, Encoding, unlimited) -> format(Report, Encoding, -1);
format([Own, Links], Encoding, Depth) when is_list(Links) ->
    Way = {Encoding, Depth},
    "  crasher:\n" ++ own(Own, Way) ++ "\n  neighbours:\n" ++ joined([neighbour(Link, Way) || Link <- Links]);
format([_, _], _, _) -> refuse().

-spec refuse() -> no_return().
refuse() -> prim:raw(exit, {refused, proc_lib, format, 1}).

-spec joined([string()]) -> string().
joined([]) -> [];
joined([T]) -> T;
joined([T | Ts]) -> T ++ "\n" ++ joined(Ts).

-spec own(term(), term()) -> string().
own(Own, Way) ->
    case separated(Own, []) of
        {First, {Class, Reason, Stack}, Rest} ->
            Error = "    " ++ exception(Class, Reason, Stack, Way),
            joined([report(First, "    ", Way), Error, report(Rest, "    ", Way)]);
        no -> report(Own, "    ", Way)
    end.

%% what comes before the error, the error, and what comes after it
-spec separated(term(), list()) -> {list(), term(), list()} | no.
separated([{error_info, Info} | Rest], Before) -> {lists:reverse(Before), Info, Rest};
separated([X | Rest], Before) when is_tuple(X), tuple_size(X) > 0, element(1, X) =/= error_info ->
    separated(Rest, [X | Before]);
separated(_, _) -> no.

-spec neighbour(term(), term()) -> string().
neighbour({neighbour, Report}, Way) -> "    neighbour:\n" ++ report(Report, "      ", Way);
neighbour(Report, Way) -> "    neighbour:\n" ++ report(Report, "      ", Way).

-spec report(term(), string(), term()) -> string().
report(Report, Indent, Way) when is_list(Report) -> joined(parts(Report, Indent, Way));
report(Report, Indent, Way) -> Indent ++ shown(Report, length(Indent) + 1, Way).

-spec parts(term(), string(), term()) -> [string()].
parts([{initial_call, {M, F, As}} | Rest], Indent, Way) when is_atom(M), is_atom(F), is_list(As) ->
    [Indent ++ "initial call: " ++ named(M, F, length(As)) | parts(Rest, Indent, Way)];
parts([{initial_call, Call} | _], _, _) when not is_tuple(Call); tuple_size(Call) =/= 3 -> error(function_clause);
parts([{Tag, Data} | Rest], Indent, Way) ->
    Part = Indent ++ shown(Tag, length(Indent) + 1, tag(Way)) ++ ": " ++ shown(Data, 18, Way),
    [Part | parts(Rest, Indent, Way)];
parts(_, _, _) -> [].

-spec named(atom(), atom(), arity()) -> string().
named(M, F, A) -> pf_format:write(M) ++ ":" ++ pf_format:write(F) ++ "/" ++ integer_to_list(A).

%% ---- errors

-spec exception(term(), term(), term(), term()) -> string().
exception(Class, Reason, Stack, Way) ->
    {Text, Rest} = explained(Class, Reason, Stack, Way),
    Own = own_words(Reason, Rest),
    exited(Class) ++ said(reason, Text, Own)
        ++ lists:append(["\n      " ++ F || F <- frames(kept(lists:reverse(Rest)), 1, Way, Own)]).

-spec exited(term()) -> string().
exited(error) -> "exception error: ";
exited(exit) -> "exception exit: ";
exited(throw) -> "exception throw: ".

-spec explained(term(), term(), term(), term()) -> {string(), list()}.
explained(Class, Reason, Stack, Way) ->
    case {is_stack(Stack), Reason, Stack} of
        {false, _, _} -> {value("", {Reason, Stack}, Class, Way), []};
        {true, function_clause, [{M, F, As, Info} | Rest]} when is_list(As), Class =:= error ->
            Error = "no function clause matching ",
            Before = copies(4 + length(exited(Class))),
            {Error ++ call(Error, Before, {M, F}, As, Way) ++ " " ++ location(Info), Rest};
        {true, function_clause, [{shell, F, A, _}]} when Class =:= error ->
            {"no function clause matching call to " ++ pf_format:write(F) ++ "/" ++ integer_to_list(A), []};
        {true, undef, [{M, F, A, _} | Rest]} when Class =:= error ->
            {"undefined function " ++ called(M, F, arity(A)), Rest};
        _ -> {reason(Class, Reason, Way), Stack}
    end.

-spec is_stack(term()) -> boolean().
is_stack([]) -> true;
is_stack([{M, F, A, I} | Fs]) when is_atom(M), is_atom(F), is_list(I) ->
    (is_integer(A) orelse is_list(A)) andalso is_stack(Fs);
is_stack(_) -> false.

-spec arity(integer() | list()) -> integer().
arity(As) when is_list(As) -> length(As);
arity(A) -> A.

-spec reason(term(), term(), term()) -> string().
reason(error, badarg, _) -> "bad argument";
reason(error, {badarg, V}, Way) -> value("bad argument: ", V, error, Way);
reason(error, {badkey, V}, Way) -> value("bad key: ", V, error, Way);
reason(error, {badmap, V}, Way) -> value("bad map: ", V, error, Way);
reason(error, badarith, _) -> "an error occurred when evaluating an arithmetic expression";
reason(error, {badarity, {F, As}}, _) when is_function(F) -> fun_named(F) ++ " called with " ++ counted(length(As));
reason(error, {badfun, V}, Way) -> value("bad function ", V, error, Way);
reason(error, {badmatch, V}, Way) -> value("no match of right hand side value ", V, error, Way);
reason(error, {case_clause, V}, Way) -> value("no case clause matching ", V, error, Way);
reason(error, {try_clause, V}, Way) -> value("no try clause matching ", V, error, Way);
reason(error, if_clause, _) -> "no true branch found when evaluating an if expression";
reason(error, noproc, _) -> "no such process or port";
reason(error, notalive, _) -> "the node cannot be part of a distributed system";
reason(error, system_limit, _) -> "a system limit has been reached";
reason(error, timeout_value, _) -> "bad receive timeout value";
reason(error, {shell_undef, F, A, _}, _) ->
    "undefined shell command " ++ pf_format:write(F) ++ "/" ++ integer_to_list(arity(A));
reason(error, {argument_limit, _}, _) -> "limit of number of arguments to interpreted function exceeded";
reason(error, {bad_filter, V}, Way) -> value("bad filter ", V, error, Way);
reason(error, {bad_generator, V}, Way) -> value("bad generator ", V, error, Way);
reason(error, {unbound, V}, _) -> "variable " ++ pf_format:write(V) ++ " is unbound";
reason(exit, {restricted_shell_bad_return, V}, Way) ->
    value("restricted shell module returned bad value ", V, exit, Way);
reason(exit, {restricted_shell_disallowed, {{M, F}, As}}, Way) ->
    Error = "restricted shell does not allow ",
    Error ++ call(Error, copies(4 + length(exited(exit))), {M, F}, As, Way);
reason(exit, {restricted_shell_disallowed, _}, _) -> refuse();
reason(exit, restricted_shell_started, _) -> "restricted shell starts now";
reason(exit, restricted_shell_stopped, _) -> "restricted shell stopped";
reason(exit, calling_self, _) -> "the current process attempted to call itself";
reason(Class, Reason, Way) -> shown(Reason, 5 + length(exited(Class)), Way).

-spec counted(non_neg_integer()) -> string().
counted(0) -> "no arguments";
counted(1) -> "one argument";
counted(2) -> "two arguments";
counted(N) -> integer_to_list(N) ++ " arguments".

-spec fun_named(fun()) -> string().
fun_named(F) ->
    {_, M} = erlang:fun_info(F, module),
    {_, Name} = erlang:fun_info(F, name),
    {_, A} = erlang:fun_info(F, arity),
    called(M, Name, A).

%% A value after a text, or on lines of its own where it takes fewer there.
-spec value(string(), term(), term(), term()) -> string().
value(Text, V, Class, Way) ->
    Before = 4 + length(exited(Class)),
    Beside = shown(V, Before + length(Text) + 1, Way),
    case lines(Beside) of
        N when N > 1 ->
            Below = shown(V, Before + 1, Way),
            case lines(Below) < N of
                true -> Text ++ "\n" ++ copies(Before) ++ Below;
                false -> Text ++ Beside
            end;
        _ -> Text ++ Beside
    end.

-spec lines(string()) -> non_neg_integer().
lines([$\n | T]) -> 1 + lines(T);
lines([_ | T]) -> lines(T);
lines([]) -> 0.

-spec copies(non_neg_integer()) -> string().
copies(N) -> lists:duplicate(N, $\s).

%% frames of the library of processes at the beginning aren't shown
-spec kept(list()) -> list().
kept([{proc_lib, _, _, _} | Fs]) -> kept(Fs);
kept([{erl_eval, _, _, _} | Fs]) -> kept(Fs);
kept(Fs) -> lists:reverse(Fs).

-spec frames(list(), pos_integer(), term(), term()) -> [string()].
frames([], _, _, _) -> [];
frames([{M, F, A, Info} | Fs], N, Way, Own) ->
    Place = case A of
        As when is_list(As) ->
            Called = copies(6) ++ "   called as ",
            "\n" ++ Called ++ call("", Called, {M, F}, As, Way);
        _ -> " " ++ location(Info)
    end,
    Explained = lists:append(["\n" ++ copies(9) ++ T || T <- explained(Own, A)]),
    [origin(N, M, F, arity(A)) ++ " " ++ called(M, F, arity(A)) ++ Place ++ Explained | frames(Fs, N + 1, Way, none)].

%% What a module says of an error of its own, at the first frame: its reason, and each argument. ERROR_INFO is set where
%% the sources name what such a frame has.
-ifdef(ERROR_INFO).
-spec own_words(term(), list()) -> term().
own_words(Reason, [{M, _, _, Info} | _] = Stack) ->
    case lists:keyfind(error_info, 1, Info) of
        {error_info, How} when is_map(How) ->
            Module = maps:get(module, How, M),
            Function = maps:get(function, How, format_error),
            try Module:Function(Reason, Stack) catch error:_ -> none end;
        _ -> none
    end;
own_words(_, []) -> none.

-spec said(term(), string(), term()) -> string().
said(_, Default, none) -> Default;
said(What, Default, Own) ->
    case maps:find(What, Own) of {ok, Text} -> pf_format:characters(Text, latin1); error -> Default end.

-spec explained(term(), integer() | list()) -> [string()].
explained(none, _) -> [];
explained(Own, As) when is_list(As) -> explained(Own, length(As));
explained(Own, A) ->
    lists:append([argument("*** argument " ++ integer_to_list(N) ++ ": ", said(N, "", Own)) || N <- lists:seq(1, A)])
        ++ ["*** " ++ T || [_ | _] = T <- [said(general, "", Own)]].

%% the first line of a text is after its name, the others are below it
-spec argument(string(), string()) -> [string()].
argument(_, "") -> [];
argument(Name, Text) ->
    [First | Lines] = string:lexemes(Text, "\r\n"),
    [Name ++ First | [copies(length(Name)) ++ Line || Line <- Lines]].
-else.
own_words(_, [{_, _, _, Info} | _]) -> lists:keymember(error_info, 1, Info) andalso refuse(), none;
own_words(_, []) -> none.
said(_, Default, _) -> Default.
explained(_, _) -> [].
-endif.

-spec origin(pos_integer(), atom(), atom(), arity()) -> string().
origin(1, M, F, A) -> case is_operator(M, F, A) of true -> "in operator "; false -> "in function " end;
origin(_, _, _, _) -> "in call from".

-spec is_operator(atom(), atom(), arity()) -> boolean().
is_operator(erlang, F, A) -> try erl_internal:op_type(F, A) of _ -> true catch error:_ -> false end;
is_operator(_, _, _) -> false.

-spec called(atom(), atom(), integer()) -> string().
called(M, F, A) -> function(M, F, A) ++ "/" ++ integer_to_list(A).

%% a function by its module, where it isn't known without
-spec function(atom(), atom(), arity()) -> string().
function(M, F, A) ->
    case {M =:= erlang andalso erl_internal:bif(F, A), is_operator(M, F, A)} of
        {true, _} -> pf_format:write(F);
        {_, true} when F =:= '/' -> pf_format:write(F);
        {_, true} -> atom_to_list(F);
        _ -> pf_format:write(M) ++ ":" ++ pf_format:write(F)
    end.

-spec location(list()) -> string().
location(Info) ->
    case {lists:keyfind(file, 1, Info), lists:keyfind(line, 1, Info)} of
        {{file, File}, {line, Line}} -> "(" ++ File ++ ", line " ++ pf_format:write(Line) ++ ")";
        _ -> ""
    end.

%% ---- calls with their arguments

-spec call(string(), string(), {atom(), atom()}, list(), term()) -> string().
call(Error, Before, {M, F}, As, Way) ->
    case is_operator(M, F, length(As)) of
        true -> operation(Error, Before, atom_to_list(F), As, Way);
        false ->
            Name = function(M, F, length(As)),
            Column = length(Before) + length(Error) + length(Name),
            Beside = arguments(As, Column, Way),
            Below = arguments(As, length(Before) + length(Name), Way),
            case lines(arguments([a2345, b2345], Column, Way)) > 0 orelse lines(Below) < lines(Beside) of
                true -> "\n" ++ Before ++ Name ++ Below;
                false -> Name ++ Beside
            end
    end.

%% Arguments are printed as a list, in parentheses. One that would be a text has its first element there as an atom of
%% as many characters.
-spec arguments(list(), non_neg_integer(), term()) -> string().
arguments([N | As], Column, Way) ->
    case pf_format:printable_list([N | As]) of
        true ->
            Digits = integer_to_list(N),
            "(" ++ Digits ++ inside(lists:nthtail(1 + length(Digits), listed(N, As, Column, Way)));
        false -> "(" ++ inside(tl(shown([N | As], Column + 1, Way)))
    end;
arguments([], _, _) -> "()".

-spec listed(integer(), list(), non_neg_integer(), term()) -> string().
listed(N, As, Column, Way) when N < 10 -> shown([a | As], Column + 1, Way);
listed(N, As, Column, Way) when N < 100 -> shown([aa | As], Column + 1, Way);
listed(_, As, Column, Way) -> shown([aaa | As], Column + 1, Way).

-spec inside(string()) -> string().
inside(S) -> lists:droplast(S) ++ ")".

-spec operation(string(), string(), string(), list(), term()) -> string().
operation(Error, Before, Op, [A], Way) -> Op ++ " " ++ shown(A, length(Error) + length(Before) + length(Op) + 2, Way);
operation(Error, Before, Op, [A, B], Way) ->
    Column = length(Error) + length(Before),
    First = shown(A, Column + 1, Way),
    Second = shown(B, Column + 1, Way),
    Line = "\n" ++ copies(Column),
    Below = First ++ Line ++ Op ++ Line ++ Second,
    case lines(First) > 0 of
        true -> Below;
        false ->
            Beside = shown(B, Column + length(Op) + 2 + length(First) + 1, Way),
            case lines(Second) < lines(Beside) of
                true -> Below;
                false -> First ++ " " ++ Op ++ " " ++ Beside
            end
    end.

%% ---- terms

%% a tag is printed whole
-spec tag(term()) -> term().
tag({Encoding, _}) -> {Encoding, -1}.

%% A term from a column on.
-spec shown(term(), pos_integer(), term()) -> string().
shown(T, Column, {Encoding, Depth}) ->
    Encoding =/= latin1 andalso pf_format:ascii_binaries(T),
    pf_pretty:print(T, Column, 80, Depth, texts).
