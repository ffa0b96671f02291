%% @doc Reading: a file through epp and Erlang's compiler, up to Core Erlang; and what a source is seen to use.
-module(plain_source).
-export([joined/1, compiled_names/1, read/2, read_library/2, wants/1]).
-export_type([source/0]).

-type source() :: #{name := module(), functions := #{{atom(), arity()} => cerl:cerl()}, exports := [{atom(), arity()}],
                    forms => [erl_parse:abstract_form()]}.

%% @doc A file as Core Erlang. What the compiler refuses is refused in its words.
-spec read(file:filename(), [term()]) -> source().
read(File, Defines) ->
    [throw({refuse, File, 1, Sentence}) || {no, Sentence} <- [readable(File)]],
    Forms = plain_cut:forms(forms(File, Defines), maps:get(cuts, plain_state:get(options))),
    [throw({refuse, File, line(Location), Module:format_error(What)}) || {error, {Location, Module, What}} <- Forms],
    Core = core(File, Forms),
    #{name => cerl:concrete(cerl:module_name(Core)),
      functions => maps:from_list([{cerl:var_name(Name), Function} || {Name, Function} <- cerl:module_defs(Core)]),
      exports => [cerl:var_name(Name) || Name <- cerl:module_exports(Core)],
      forms => Forms}.

-spec readable(file:filename()) -> yes | {no, string()}.
readable(File) ->
    case {filelib:is_dir(File), filelib:is_regular(File), filename:extension(File)} of
        {true, _, _} -> {no, "this is a folder; name its files, or hunt its tests by pulsefarm-erl eunit"};
        {false, false, _} -> {no, "there is no such file"};
        {false, true, ".beam"} ->
            case compiled_forms(File) of
                {ok, _} -> yes;
                none -> {no, "this is compiled without debug_info; name its source"}
            end;
        _ -> yes
    end.

%% What a compiled file keeps of its source.
-spec compiled_forms(file:filename()) -> {ok, [term()]} | none.
compiled_forms(File) ->
    case beam_lib:chunks(File, [abstract_code]) of
        {ok, {_, [{abstract_code, {raw_abstract_v1, Forms}}]}} -> {ok, Forms};
        _ -> none
    end.

%% @doc A file of the library or of OTP, which doesn't change while this program runs, and so is read once for all passes
%% with the same macros. One reading of each file is kept: all of them, by each set of macros, don't fit a long session.
-spec read_library(file:filename(), [term()]) -> source().
read_library(File, Defines) ->
    Asked = {Defines, maps:get(includes, plain_state:get(options))},
    case get({?MODULE, File}) of
        {Asked, Source} -> Source;
        _ ->
            Source = maps:remove(forms, read(File, Defines)),
            _ = put({?MODULE, File}, {Asked, Source}),
            Source
    end.

-spec forms(file:filename(), [term()]) -> [term()].
forms(File, Defines) ->
    case filename:extension(File) =:= ".beam" andalso compiled_forms(File) of
        {ok, Forms} -> Forms;
        _ -> parsed(File, Defines)
    end.

-spec parsed(file:filename(), [term()]) -> [term()].
parsed(File, Defines) ->
    #{includes := Includes} = plain_state:get(options),
    Path = Includes ++ [filename:dirname(File), code:lib_dir(kernel) ++ "/include", code:lib_dir(stdlib) ++ "/include"],
    case epp:parse_file(File, [{includes, Path}, {macros, Defines}]) of
        {ok, Read} ->
            Forms = plain_query:forms(Read),
            case lists:any(fun is_alive/1, Forms) of true -> Forms; false -> alive(Forms) end;
        {error, Reason} -> throw({refuse, File, 1, file:format_error(Reason)})
    end.

-spec is_alive(term()) -> boolean().
is_alive({function, _, is_process_alive, 1, _}) -> true;
is_alive(_) -> false.

%% A process that asks whether it is alive itself is: by that the macros of EUnit hide a `true' from the compiler.
-spec alive(term()) -> term().
alive({call, Line, {atom, _, is_process_alive}, [{call, _, {atom, _, self}, []}]}) -> {atom, Line, true};
alive(Form) when is_tuple(Form) -> list_to_tuple(alive(tuple_to_list(Form)));
alive([Head | Tail]) -> [alive(Head) | alive(Tail)];
alive(Other) -> Other.

-spec core(file:filename(), [term()]) -> cerl:c_module().
core(File, Forms) ->
    case compiled(Forms, [to_core0, binary, return, {error_location, line}, nowarn_deprecated_function]) of
        {ok, _, Core, _} -> Core;
        {error, [{_, [{none, compile, {undef_parse_transform, Name}} | _]} | _], _} ->
            throw({refuse, File, 1, io_lib:format("the parse transform ~w isn't on the path; name its folder by ERL_LIBS", [Name])});
        {error, [{Named, [{Location, Module, What} | _]} | _], _} -> throw({refuse, Named, line(Location), Module:format_error(What)});
        _ -> throw({refuse, File, 1, "the compiler makes no Core Erlang of it"})
    end.

%% @doc The names of all functions that the compiler makes of a source, those of its funs among them.
-spec compiled_names([term()]) -> [atom()].
compiled_names(Forms) ->
    {ok, _, Binary, _} = compiled(Forms, [binary, return, nowarn_deprecated_function]),
    {ok, {_, [{locals, Locals}]}} = beam_lib:chunks(Binary, [locals]),
    [Name || {Name, _} <- Locals].

%% The specification of compile:forms/2 speaks of binaries alone; with to_core0 it gives Core Erlang.
-spec compiled([term()], [term()]) -> term().
compiled(Forms, Options) -> apply(list_to_existing_atom("compile"), forms, [Forms, Options]).

-spec line(term()) -> non_neg_integer().
line({Line, _}) -> Line;
line(Line) when is_integer(Line) -> Line;
line(_) -> 0.

%% @doc The macros by which the library is given the parts that a source needs.
-spec wants(source()) -> [atom()].
wants(#{forms := Forms, exports := Exports}) ->
    Catches = throws(Forms) orelse lists:member({terminate, 2}, Exports) orelse lists:member({terminate, 3}, Exports)
        orelse mentions(supervisor, Forms),
    Ancestors = lists:any(fun(Atom) -> mentions(Atom, Forms) end, ['$ancestors', '$initial_call', initial_call, translate_initial_call, dictionary])
        orelse asks_all(Forms),
    Fixed = mentions(safe_fixed, Forms) orelse mentions(safe_fixed_monotonic_time, Forms),
    [Macro || {Macro, true} <-
        [{'SERVER_TIMEOUTS', answers_with_time(Forms)}, {'START_TIMES', starts_in_time(Forms)},
         {'STOP_TIMES', stops_in_time(Forms)}, {'MATCH_MAPS', has_maps(Forms)}, {'ANCESTORS', Ancestors},
         {'CATCHES', Catches}, {'TIMED_CALLS', calls_in_time(Forms)}, {'GIVES_UP', catches(Forms)},
         {'STATEM', mentions(gen_statem, Forms)}, {'FIX_TIMES', Fixed}, 
         {'ERROR_INFO', mentions(format_error, Forms) orelse mentions(function, Forms)},
         {'PRETTY', has_text("~[^a-zA-Z~#+]*[tl]*([pP]|$)", Forms)},
         {'RARE_FORMATS', has_text("~[^a-zA-Z~]*([*+#]|[tl]*([PWxX]|$))", Forms)}]].

%% Whether a text has a directive of these, or ends within one, as a text that is built at run time may.
-spec has_text(string(), term()) -> boolean().
has_text(Directive, {string, _, Text}) -> re:run(Text, Directive, [unicode]) =/= nomatch;
has_text(Directive, {atom, Line, Atom}) ->
    Text = atom_to_list(Atom),
    lists:member($~, Text) andalso has_text(Directive, {string, Line, Text});
has_text(Directive, Form) when is_tuple(Form) -> has_text(Directive, tuple_to_list(Form));
has_text(Directive, [Head | Tail]) -> has_text(Directive, Head) orelse has_text(Directive, Tail);
has_text(_, _) -> false.

%% @doc The macros that all sources want: an answer may come after its call timed out where one has calls within a time
%% and one catches. With CALL_TIMEOUTS each call has a time.
-spec joined([atom()]) -> [atom()].
joined(Wanted) ->
    #{library_defines := Own} = plain_state:get(options),
    Timed = lists:member('TIMED_CALLS', Wanted) orelse lists:member('CALL_TIMEOUTS', Own),
    Late = Timed andalso lists:member('GIVES_UP', Wanted),
    lists:usort(['LATE_ANSWERS' || Late] ++ Wanted).

-spec mentions(atom(), term()) -> boolean().
mentions(Atom, {atom, _, Atom}) -> true;
mentions(Atom, {attribute, _, _, Atom}) -> true;
mentions(Atom, Form) when is_tuple(Form) -> mentions(Atom, tuple_to_list(Form));
mentions(Atom, [Head | Tail]) -> mentions(Atom, Head) orelse mentions(Atom, Tail);
mentions(_, _) -> false.

%% Whether a process asks for its whole dictionary.
-spec asks_all(term()) -> boolean().
asks_all({call, _, {atom, _, get}, []}) -> true;
asks_all({call, _, {remote, _, {atom, _, erlang}, {atom, _, get}}, []}) -> true;
asks_all(Form) when is_tuple(Form) -> asks_all(tuple_to_list(Form));
asks_all([Head | Tail]) -> asks_all(Head) orelse asks_all(Tail);
asks_all(_) -> false.

%% Whether a list has {timeout, Time} as the options of a start may have it.
-spec starts_in_time(term()) -> boolean().
starts_in_time({cons, _, {tuple, _, [{atom, _, timeout}, Time]}, Rest}) -> may_be_time(Time) orelse starts_in_time(Rest);
starts_in_time(Form) when is_tuple(Form) -> starts_in_time(tuple_to_list(Form));
starts_in_time([Head | Tail]) -> starts_in_time(Head) orelse starts_in_time(Tail);
starts_in_time(_) -> false.

-spec has_maps(term()) -> boolean().
has_maps({map, _, _}) -> true;
has_maps(Form) when is_tuple(Form) -> has_maps(tuple_to_list(Form));
has_maps([Head | Tail]) -> has_maps(Head) orelse has_maps(Tail);
has_maps(_) -> false.

%% Whether a server is stopped within a time.
-spec stops_in_time(term()) -> boolean().
stops_in_time({call, _, {remote, _, {atom, _, Module}, {atom, _, stop}}, [_, _, Time]})
  when Module =:= gen_server; Module =:= gen_statem; Module =:= gen_event; Module =:= gen; Module =:= proc_lib ->
    may_be_time(Time);
stops_in_time(Form) when is_tuple(Form) -> stops_in_time(tuple_to_list(Form));
stops_in_time([Head | Tail]) -> stops_in_time(Head) orelse stops_in_time(Tail);
stops_in_time(_) -> false.

%% Whether a server may be called within a time: by a function of a behaviour, or by one that a run alone knows.
-spec calls_in_time(term()) -> boolean().
calls_in_time({call, _, {remote, _, Module, Function}, Arguments}) ->
    (in_time(Module, Function, length(Arguments)) andalso may_be_time(lists:last(Arguments))) orelse calls_in_time(Arguments);
calls_in_time({call, _, {atom, _, apply}, [Module, Function, _]}) -> in_time(Module, Function, any);
calls_in_time({'fun', _, {function, Module, Function, {integer, _, Arity}}}) -> in_time(Module, Function, Arity);
calls_in_time(Form) when is_tuple(Form) -> calls_in_time(tuple_to_list(Form));
calls_in_time([Head | Tail]) -> calls_in_time(Head) orelse calls_in_time(Tail);
calls_in_time(_) -> false.

-spec in_time(term(), term(), arity() | any) -> boolean().
in_time(Module, Function, Arity) ->
    Fits = fun({atom, _, Atom}, Name) -> Atom =:= Name; (_, _) -> true end,
    lists:any(fun({M, F, A}) -> Fits(Module, M) andalso Fits(Function, F) andalso (Arity =:= any orelse Arity =:= A) end, timed()).

-spec timed() -> [{module(), atom(), arity()}].
timed() ->
    [{gen_server, call, 3}, {gen_statem, call, 3}, {gen_event, call, 4}, {gen, call, 4}, {erlang, apply, 3}]
        ++ [{Module, stop, 3} || Module <- [gen_server, gen_statem, gen_event, gen, proc_lib]]
        ++ [{sys, get_state, 2}, {sys, suspend, 2}, {sys, resume, 2}, {sys, replace_state, 3}, {sys, terminate, 3}].

-spec catches(term()) -> boolean().
catches({'try', _, _, _, [_ | _], _}) -> true;
catches({'catch', _, _}) -> true;
catches(Form) when is_tuple(Form) -> catches(tuple_to_list(Form));
catches([Head | Tail]) -> catches(Head) orelse catches(Tail);
catches(_) -> false.

-spec throws(term()) -> boolean().
throws({call, _, {atom, _, throw}, [_]}) -> true;
throws({remote, _, {atom, _, erlang}, {atom, _, throw}}) -> true;
throws(Form) when is_tuple(Form) -> throws(tuple_to_list(Form));
throws([Head | Tail]) -> throws(Head) orelse throws(Tail);
throws(_) -> false.

%% Whether a tuple looks like the answer of a callback with a time, as {noreply, State, 1000}.
-spec answers_with_time(term()) -> boolean().
answers_with_time({tuple, _, [{atom, _, Tag}, _, Last]}) when Tag =:= noreply; Tag =:= ok -> may_be_time(Last) orelse answers_with_time(Last);
answers_with_time({tuple, _, [{atom, _, reply}, _, _, Last]}) -> may_be_time(Last) orelse answers_with_time(Last);
answers_with_time(Form) when is_tuple(Form) -> answers_with_time(tuple_to_list(Form));
answers_with_time([Head | Tail]) -> answers_with_time(Head) orelse answers_with_time(Tail);
answers_with_time(_) -> false.

-spec may_be_time(tuple()) -> boolean().
may_be_time({tuple, _, _}) -> false;
may_be_time({atom, _, _}) -> false;
may_be_time(_) -> true.
