%% @doc What is reached from the root: each function is written when it is first needed, in the mode that it is needed in.
%% A fun, or a module that only a run knows, reaches all that it may be: so dispatchers have a clause for each.
-module(plain_reach).
-export([short_name/1, need/1, export/2, use/1, work/0, name/3, base/2, in_mode/2, dispatcher/2, remote_dispatcher/4, remote_name/3, spread/1, fun_mode/2,
         exported_functions/0, left_out/0, remote_targets/3, exporting/2, target/4, target_mode/2, tag/1, client/1]).

-type mode() :: plain | checked | traced.
%% A function of a module, or one that a fun became.
-type key() :: {function, module(), atom(), arity(), mode()} | {lifted, atom(), mode()}.
-export_type([mode/0, key/0]).

%% The call in a source by which a function is reached: its own, or that of the function of the library that is written.
-spec origin(key()) -> {file:filename(), plain_tree:line(), key()} | none.
origin(Key) ->
    case plain_state:get(kind) of
        user -> {plain_state:get(file), plain_state:get(line), Key};
        _ -> plain_state:get(origin)
    end.

%% @doc The name in the text of a function of a module. Those of the first module keep theirs, where they may.
-spec name(module(), atom(), arity()) -> atom().
name(Module, Function, Arity) ->
    Own = Module =:= plain_state:get(main) andalso not lists:member({Function, Arity}, built_in())
        andalso not (is_root(Function, Arity) andalso (plain_services:any() orelse plain_trace:traced())),
    case {Own, plain_state:get(short)} of
        {true, _} -> Function;
        {false, false} -> list_to_atom(lists:concat([Module, "@", Function]));
        {false, true} -> short_name({Module, Function, Arity})
    end.

%% Where the text would be long, functions have names of a few letters, which nothing else in the text has.
-spec short_name({module(), atom(), arity()} | {'fun', term()} | {checked | ended, atom()}) -> atom().
short_name(Key) ->
    case plain_state:find_in(short_names, Key) of
        {ok, Name} -> Name;
        error ->
            Name = free_name(plain_state:get(last_name)),
            plain_state:set_in(short_names, Key, Name),
            Name
    end.

%% The next name that isn't taken.
-spec free_name(non_neg_integer()) -> atom().
free_name(Number) ->
    plain_state:put(last_name, Number + 1),
    Name = list_to_atom(letters(Number)),
    case plain_modules:has(plain_state:get(main), Name) orelse lists:keymember(Name, 1, built_in()) orelse not plain_text:is_bare(Name) of
        true -> free_name(Number + 1);
        false -> Name
    end.

-spec letters(non_neg_integer()) -> string().
letters(Number) when Number < 26 -> [$a + Number];
letters(Number) -> letters(Number div 26 - 1) ++ [$a + Number rem 26].

%% @doc The name before the number of what is in a function.
-spec base(module(), atom()) -> atom().
base(Module, Function) ->
    case Module =:= plain_state:get(main) of
        true -> Function;
        false -> list_to_atom(lists:concat([Module, "@", Function]))
    end.

-spec is_root(atom(), arity()) -> boolean().
is_root(Function, Arity) -> Arity =:= 0 andalso lists:member(Function, plain_state:get(roots)).

%% The functions of the profile, whose names a module may not define.
-spec built_in() -> [{atom(), arity()}].
built_in() ->
    [{self, 0}, {hd, 1}, {tl, 1}, {length, 1}, {element, 2}, {tuple_size, 1}, {is_integer, 1}, {is_atom, 1}, {is_tuple, 1}, {is_list, 1},
     {is_pid, 1}, {is_reference, 1}, {exit, 1}, {exit, 2}, {spawn, 3}, {spawn_link, 3}, {link, 1}, {unlink, 1}, {monitor, 2}, {demonitor, 1},
     {process_flag, 2}, {register, 2}, {unregister, 1}, {whereis, 1}, {make_ref, 0},
     {spawn_monitor, 3}, {demonitor, 2}, {is_boolean, 1}, {is_number, 1}, {is_function, 1}].

-spec in_mode(atom(), mode()) -> atom().
in_mode(Name, plain) -> Name;
in_mode(Name, checked) ->
    case plain_state:get(short) of
        true -> short_name({checked, Name});
        false -> list_to_atom(atom_to_list(Name) ++ "@x")
    end;
in_mode(Name, traced) -> list_to_atom(atom_to_list(Name) ++ "@t").

-spec need(key()) -> ok.
need(Key) ->
    case plain_state:find_in(wanted, Key) of
        {ok, _} -> ok;
        error ->
            plain_state:set_in(wanted, Key, origin(Key)),
            plain_state:put(queue, [Key | plain_state:get(queue)])
    end.

-spec export(atom(), arity()) -> ok.
export(Name, Arity) -> plain_state:set_in(exports, {Name, Arity}, true).

%% @doc That a part of the prelude is used.
-spec use(term()) -> ok.
use(Part) -> plain_state:set_in(prelude, Part, true).

%% @doc The dispatcher of funs with so many arguments, or for arguments in a list.
-spec dispatcher(arity() | apply_fun | apply_function | fun_name, mode()) -> atom().
dispatcher(What, Mode) ->
    plain_state:set_in(calls, {What, Mode}, true),
    Name = case What of
        apply_fun -> 'applyf@';
        apply_function -> 'applym@';
        fun_name -> 'named@';
        Arity -> list_to_atom("call@" ++ integer_to_list(Arity))
    end,
    in_mode(Name, Mode).

%% @doc The dispatcher of calls of which a run knows the module, the function, or both.
-spec remote_dispatcher(module() | any, atom() | any, arity(), mode()) -> atom().
remote_dispatcher(Module, Function, Arity, Mode) ->
    plain_state:set_in(remote_calls, {Module, Function, Arity, Mode}, true),
    in_mode(remote_name(Module, Function, Arity), Mode).

-spec remote_name(module() | any, atom() | any, arity()) -> atom().
remote_name(any, any, Arity) -> list_to_atom("apply@" ++ integer_to_list(Arity));
remote_name(any, Function, _) -> list_to_atom("to@" ++ atom_to_list(Function));
remote_name(Module, any, _) -> list_to_atom("in@" ++ atom_to_list(Module)).

%% @doc The tag of `fun M:F/A'.
-spec tag({module(), atom(), arity()}) -> atom().
tag({Module, Function, Arity}) -> list_to_atom(lists:concat([Module, ":", Function, "/", Arity])).

%% @doc Writes all that is needed, until nothing more is.
-spec work() -> ok.
work() ->
    case plain_state:get(queue) of
        [Key | Rest] ->
            plain_state:put(queue, Rest),
            plain_function:write(Key),
            work();
        [] ->
            Before = map_size(plain_state:get(wanted)),
            plain_state:put(kind, lib),
            plain_state:put(origin, none),
            spread_all(),
            case map_size(plain_state:get(wanted)) > Before orelse plain_state:get(queue) =/= [] of
                true -> work();
                false -> ok
            end
    end.

%% What the dispatchers reach.
-spec spread_all() -> ok.
spread_all() ->
    lists:foreach(fun spread/1, plain_state:keys(calls)),
    [need(target(Module, Function, Arity, target_mode(Module, Mode))) || {Of, Named, Arity, Mode} <- plain_state:keys(remote_calls),
                                                                         {Module, Function} <- remote_targets(Of, Named, Arity)],
    ok.

%% @doc The mode in which a dispatcher calls a function of a module. The callbacks of supervisors and event managers are the library's: what
%% the source raises in them is caught within, so they stay plain.
-spec target_mode(module(), mode()) -> mode().
target_mode(Module, Mode) when Module =:= supervisor; Module =:= gen_event ->
    case lists:member(Module, plain_state:get(users)) of true -> Mode; false -> plain end;
target_mode(_, Mode) -> Mode.

%% @doc A function that a dispatcher calls.
-spec target(module(), atom(), arity(), mode()) -> key().
target(Module, Function, Arity, Mode) ->
    case Module =:= erlang andalso plain_modules:find(Module, Function, Arity) of
        none -> {lifted, plain_value:wrapper(Function, Arity), Mode};
        _ -> {function, Module, Function, Arity, Mode}
    end.

%% @doc What one dispatcher of funs reaches.
-spec spread({arity() | apply_fun | apply_function | fun_name, mode()}) -> ok.
spread({fun_name, _}) ->
    [plain_value:literal(Name, 0) || Name <- ['$fun' | [Name || {_, Name} <- plain_value:fun_names()]]],
    ok;
spread({apply_function, Mode}) ->
    [need(target(Module, Function, Arity, Mode)) || {Module, Function, Arity} <- exported_functions()],
    ok;
spread({apply_fun, Mode}) ->
    [dispatcher(Arity, Mode) || {_, Arity} <- maps:to_list(plain_state:get(funs))],
    ok;
spread({Arity, Mode}) ->
    Keys = [Key || {Key, Number} <- maps:to_list(plain_state:get(funs)), Number =:= Arity],
    [need(case Key of {Module, Function, _} -> {function, Module, Function, Arity, fun_mode(Key, Mode)}; _ -> {lifted, Key, fun_mode(Key, Mode)} end)
     || Key <- Keys],
    ok.

%% @doc The mode in which a fun is reached from a dispatcher. Funs of the library stay plain in the traced form, where their errors have no
%% places of the source to show.
-spec fun_mode(atom() | {module(), atom(), arity()}, mode()) -> mode().
fun_mode(Key, traced) ->
    Kind = case Key of
        {Module, Function, Arity} -> element(1, plain_modules:find(Module, Function, Arity));
        _ ->
            {ok, #{where := #{kind := Where}}} = plain_state:find_in(lifted, Key),
            Where
    end,
    case Kind of user -> traced; _ -> plain end;
fun_mode(_, Mode) -> Mode.

%% @doc All functions that a module, function and arguments known to a run may call: those whose module and name the sources make values of.
-spec exported_functions() -> [{module(), atom(), arity()}].
exported_functions() ->
    [{Module, Function, Arity} || Module <- callable(), {Function, Arity} <- exports(Module), is_value(Function, Module)].

%% @doc The modules and functions that a call may mean of which a run knows the module, the function, or both.
-spec remote_targets(module() | any, atom() | any, arity()) -> [{module(), atom()}].
remote_targets(Of, Wanted, Arity) ->
    Behaviours = [{Module, Wanted} || Of =:= any, Wanted =/= any, Module <- [supervisor, gen_statem, gen_event], lists:member({Wanted, Arity}, plain_modules:exported(Module, lib))],
    Modules = case Of of any -> callable(); _ -> [Of] end,
    Behaviours ++ [{Module, Function} || Module <- Modules, {Function, Number} <- exports(Module), Number =:= Arity,
                                         Wanted =:= Function orelse (Wanted =:= any andalso is_value(Function, Module))].

%% The modules that the sources make values of.
-spec callable() -> [module()].
callable() ->
    Users = plain_state:get(users),
    [User || User <- Users, anything() orelse is_made(User)]
        ++ [Module || Module <- lists:usort(plain_state:keys(values) ++ plain_state:keys(tags)), not lists:member(Module, Users), exports(Module) =/= []].

-spec exports(module()) -> [{atom(), arity()}].
exports(Module) ->
    case lists:member(Module, plain_state:get(users)) of
        true -> [Export || {Function, Arity} = Export <- plain_modules:exported(Module, user), not (Module =:= plain_state:get(main) andalso is_root(Function, Arity))];
        false -> plain_modules:of_otp(Module)
    end.

-spec is_made(atom()) -> boolean().
is_made(Atom) -> maps:is_key(Atom, plain_state:get(values)) orelse maps:is_key(Atom, plain_state:get(tags)).

%% Whether a function of a module that was given, or of the library, may be named by a value. In a large text the tags of messages name none,
%% but for those that --calls names.
-spec is_value(atom(), module()) -> boolean().
is_value(Function, Module) ->
    Called = lists:member({Module, Function}, maps:get(calls, plain_state:get(options))),
    Named = case plain_state:get(narrow) of true -> maps:is_key(Function, plain_state:get(values)); false -> is_made(Function) end,
    Called orelse Named orelse (anything() andalso lists:member(Module, plain_state:get(users))).

%% @doc The functions that are left out since their names stand in the sources as tags alone.
-spec left_out() -> [{module(), atom()}].
left_out() ->
    case plain_state:get(narrow) of
        true -> lists:usort([{Module, Function} || Module <- callable(), {Function, _} <- exports(Module), not is_value(Function, Module), is_made(Function)]);
        false -> []
    end.

%% Whether atoms are made of texts, so that any may be a value.
-spec anything() -> boolean().
anything() -> lists:any(fun({atoms, list_to_atom, _}) -> true; (_) -> false end, plain_state:keys(prelude)).

%% @doc The modules that export a function: those that were given, and the behaviours of the library.
-spec exporting(atom(), arity()) -> [module()].
exporting(Function, Arity) ->
    [Module || {Module, Kind} <- [{User, user} || User <- plain_state:get(users)] ++ [{supervisor, lib}, {gen_statem, lib}, {gen_event, lib}],
               lists:member({Function, Arity}, plain_modules:exported(Module, Kind))].

%% @doc The functions by whose use a service is seen to be used.
-spec client(atom()) -> [atom()].
client(pf_clock) -> [now_ms, send, unsend, read, quiet];
client(pf_names) -> [register, register_global, name_of];
client(rand) -> [flip];
client(_) -> [ask].
