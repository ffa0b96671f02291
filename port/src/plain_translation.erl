%% @doc One translation: files of plain Erlang in, a module of the profile and its map out.
-module(plain_translation).
-export([translate/2, roots/2, defaults/0, most_bytes/0]).

-define(MOST_BYTES, 65536).
%% Above this the names inside are short.
-define(LONG_NAMES, 8192).
%% Above this the tags of messages aren't taken for names of functions.
-define(LARGE, 24576).
-type options() :: #{includes := [file:filename()], defines := [atom() | {atom(), term()}], library_defines := [atom() | {atom(), term()}],
                     root := atom() | none | {all, [atom()]}, never := non_neg_integer() | infinity, lax := boolean(), calls := [{module(), atom()}], traced := boolean(),
                     arguments := boolean(), cuts := plain_cut:cuts()}.
%% What a pass begins with: the services that are used, the atoms that are made, and whether names are short, whether tags name no functions, whether names are monitored, whether floats are made,
%% and whether mailboxes are asked for.
-type plan() :: #{services := map(), known := map() | all, short := boolean(), narrow := boolean(), named := boolean(), floats := boolean(), asked := boolean()}.
-type refusal() :: {file:filename(), non_neg_integer(), string()}.
%% A place of the sources: what kind of module, file, line, and the function there, or a fun in it.
-type place() :: {plain_modules:kind(), file:filename(), non_neg_integer(), {module(), atom(), arity()} | {'fun', {module(), atom(), arity()}}}.
%% A module with a clock has a ticker that goes last, unless its times pass whatever others do.
-type translation() :: #{text := binary(), clock := boolean(), map := [plain_map:row()], notes := [string()], roots := [atom()], marks := #{pos_integer() => place()},
                         names := #{atom() => place()}, main := module(), atoms := #{atom() => [place()]}, exports := #{module() => [{atom(), arity()}]}}.
-export_type([options/0, translation/0, refusal/0, place/0]).

%% @doc The options where none is given.
-spec defaults() -> options().
defaults() ->
    #{includes => [], defines => [], library_defines => [], root => none, never => infinity, lax => false, calls => [], traced => false, arguments => false,
      cuts => #{}}.

%% @doc How many bytes a translation may have.
-spec most_bytes() -> pos_integer().
most_bytes() -> ?MOST_BYTES.

%% @doc Translates in a process of its own, since what a translation knows belongs to its process.
-spec translate([file:filename()], options()) -> {ok, translation()} | {refused, [refusal()]}.
translate(Files, Options) -> apart(fun() -> attempt(Files, Options) end).

%% @doc All functions that may be a root: those without arguments that the first file exports.
-spec roots([file:filename()], options()) -> {ok, [atom()]} | {refused, [refusal()]}.
roots([File | _], Options) ->
    apart(fun() ->
        plain_state:start(Options, first_plan()),
        try entries(File, plain_modules:give(File)) of
            Entries -> {ok, Entries}
        catch throw:{refuse, Refused, Line, Sentence} -> {refused, [{Refused, Line, lists:flatten(Sentence)}]}
        end
    end).

-spec entries(file:filename(), module()) -> [atom()].
entries(File, Module) ->
    Entries = [Name || {Name, 0} <- plain_modules:exported(Module, user)],
    Entries =:= [] andalso throw({refuse, File, 1, "the first module exports no function without arguments; export one to begin with"}),
    Entries.

-spec apart(fun(() -> Answer)) -> Answer.
apart(Make) ->
    {Pid, Monitor} = spawn_monitor(fun() -> exit({answer, Make()}) end),
    receive
        {'DOWN', Monitor, process, Pid, {answer, Answer}} -> Answer;
        {'DOWN', Monitor, process, Pid, Reason} -> error({translation, Reason})
    end.

-spec attempt([file:filename()], options()) -> {ok, translation()} | {refused, [refusal()]}.
attempt(Files, Options) ->
    try pass(Files, Options, first_plan())
    catch throw:{refuse, File, Line, Sentence} -> {refused, [{File, Line, lists:flatten(Sentence)}]}
    end.

-spec first_plan() -> plan().
first_plan() -> #{services => #{}, known => plain_prune:given(), short => false, narrow => false, named => false, floats => false, asked => false}.

%% Passes go on until the services that are used are those that are started, nothing more is found to be made, and the text is short enough.
-spec pass([file:filename()], options(), plan()) -> {ok, translation()} | {refused, [refusal()]}.
pass(Files, Options, #{known := Known, short := Short, narrow := Narrow, named := Named, floats := Floats, asked := Asked} = Plan) ->
    plain_state:start(Options, Plan),
    Roots = begin_with(Files, Options),
    plain_reach:work(),
    case {Plan#{services := plain_services:used(), known := plain_prune:after_pass(Known), named := Named orelse names_monitored(),
                floats := Floats orelse maps:is_key('#float', plain_state:get(made)),
                asked := Asked orelse mailboxes_asked()}, lists:usort(plain_state:get(refusals))} of
        {Plan, []} ->
            #{text := Text} = Translation = written(Roots),
            case byte_size(Text) of
                Long when Long > ?LONG_NAMES, not Short -> pass(Files, Options, Plan#{short := true});
                Large when Large > ?LARGE, not Narrow -> pass(Files, Options, Plan#{narrow := true, known := plain_prune:given()});
                _ -> measured(Files, Translation)
            end;
        {Plan, Refusals} -> {refused, Refusals};
        {Next, _} -> pass(Files, Options, Next)
    end.

%% Whether the sources monitor a name, or what may be one and look for a name in what comes of it.
-spec names_monitored() -> boolean().
names_monitored() ->
    Monitors = plain_state:get(monitors),
    maps:is_key(name, Monitors) orelse (maps:is_key(maybe_name, Monitors) andalso maps:is_key(looks, Monitors)).

-spec mailboxes_asked() -> boolean().
mailboxes_asked() -> [] =/= [asked || {function, pf_mailbox, of_process, 1, _} <- plain_state:keys(wanted)].

-spec measured([file:filename()], translation()) -> {ok, translation()} | {refused, [refusal()]}.
measured(Files, #{text := Text} = Translation) ->
    case byte_size(Text) > ?MOST_BYTES of
        false -> {ok, Translation};
        true -> {refused, [{hd(Files), 1, plain_size:too_large(Translation, ?MOST_BYTES)}]}
    end.

%% Reads the files and asks for the roots.
-spec begin_with([file:filename()], options()) -> [atom()].
begin_with(Files, #{root := Root}) ->
    [Main | _] = Modules = [plain_modules:give(File) || File <- Files],
    plain_state:put(main, Main),
    plain_state:put(users, Modules),
    Entries = entries(hd(Files), Main),
    Roots = case {Root, lists:member(main, Entries)} of
        {{all, Names}, _} -> Names;
        {none, true} -> [main];
        {none, false} -> without_main(hd(Files), Entries);
        {_, _} -> [Root]
    end,
    [throw({refuse, hd(Files), 1, io_lib:format("the module exports no function ~w/0; export it, or name another by --root", [Missing])}) || Missing <- Roots -- Entries],
    [throw({refuse, hd(Files), 1, io_lib:format("~w/0 makes tests and runs none of them; pulsefarm-erl eunit FOLDER hunts each", [Maker])})
     || Maker <- Roots, plain_cut:is_generator(Maker)],
    plain_state:put(roots, Roots),
    [root(Main, Name) || Name <- Roots],
    [plain_reach:need({function, Service, start, 0, plain}) || Service <- plain_services:begun()],
    Roots.

%% All functions that may be a root, where none is named; but EUnit's header exports what runs all tests.
-spec without_main(file:filename(), [atom()]) -> [atom()].
without_main(File, Entries) ->
    case lists:member(test, Entries) andalso lists:any(fun plain_cut:is_test/1, Entries) of
        true -> throw({refuse, File, 1, "the module has tests of EUnit and no main; pulsefarm-erl eunit FOLDER hunts each, or name one by --root"});
        false -> Entries
    end.

-spec root(module(), atom()) -> ok.
root(Main, Name) ->
    plain_reach:need({function, Main, Name, 0, plain}),
    plain_reach:export(Name, 0).

-spec written([atom()]) -> translation().
written(Roots) ->
    Main = plain_state:get(main),
    Dispatchers = plain_dispatch:texts(),
    Extra = [{none, 0, Label, Text} || {Label, Text} <- Dispatchers ++ entry_texts(Main, Roots) ++ plain_start:texts() ++ [{"prelude", Text} || Text <- plain_prelude:texts()]],
    Exports = [[plain_text:atom(Name), "/", integer_to_list(Arity)] || {Name, Arity} <- plain_start:exports()],
    Head = ["-module(", plain_text:atom(Main), ").\n-export([", lists:join(",", Exports), "]).\n"],
    {Texts, Rows} = plain_map:number(lists:reverse(plain_state:get(functions)) ++ Extra, 3),
    #{text => iolist_to_binary([Head, Texts]), clock => plain_services:ticks(), map => Rows, notes => [Text || {_, Text} <- lists:reverse(plain_state:get(notes))], roots => Roots,
      marks => maps:from_list([{Number, Place} || {Place, Number} <- maps:to_list(plain_state:get(marks))]),
      names => names(), main => Main, atoms => plain_state:get(atom_places), exports => maps:from_list([{Module, plain_modules:exported(Module, user)} || Module <- plain_state:get(users)])}.

%% What each name of the text means: a function of a module, or a fun in one.
-spec names() -> #{atom() => place()}.
names() ->
    Functions = [{plain_reach:name(Module, Function, Arity), {kind(Module, Function, Arity), "", 0, {Module, Function, Arity}}}
                 || {function, Module, Function, Arity, _} <- plain_state:keys(wanted)],
    Funs = [{Name, {Kind, File, Line, {'fun', Function}}}
            || {Name, #{where := #{kind := Kind, file := File, function := Function}, line := Line}} <- maps:to_list(plain_state:get(lifted))],
    maps:from_list(Functions ++ Funs).

-spec kind(module(), atom(), arity()) -> plain_modules:kind().
kind(Module, Function, Arity) -> element(1, plain_modules:find(Module, Function, Arity)).

%% A root starts the services first.
-spec entry_texts(module(), [atom()]) -> [{string(), iodata()}].
entry_texts(Main, Roots) ->
    Starts = [[plain_text:atom(plain_reach:name(Service, start, 0)), "(),"] || Service <- plain_services:begun()],
    Own = fun(Root) -> [plain_text:atom(plain_reach:name(Main, Root, 0)), "()"] end,
    case {plain_trace:traced(), Starts} of
        {true, _} -> [{"root", [plain_text:atom(Root), "()->", Starts, "V=", Own(Root), ",whereis('@0'),V.\n"]} || Root <- Roots];
        {false, []} -> [];
        {false, _} -> [{"root", [plain_text:atom(Root), "()->", Starts, Own(Root), ".\n"]} || Root <- Roots]
    end.
