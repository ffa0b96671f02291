%% @doc Where a function is: in a file that was given, in the library beside this program, or in OTP's own source.
-module(plain_modules).
-export([give/1, compiled/1, find/3, exported/2, hidden/3, has/2, of_otp/1, file/1, library/0, in_library/1]).

-type kind() :: user | lib | otp.
-export_type([kind/0]).

%% @doc Reads a file that was given; the name of its module.
-spec give(file:filename()) -> module().
give(File) ->
    #{defines := Defines} = plain_state:get(options),
    Source = #{name := Name} = read_once(File, Defines),
    case plain_state:find_in(modules, {Name, user}) of
        {ok, _} -> throw({refuse, File, 1, io_lib:format("the module ~w is given twice; name each file once", [Name])});
        error -> ok
    end,
    plain_state:put(defines, plain_source:joined(plain_source:wants(Source) ++ plain_state:get(defines))),
    keep(Name, user, File, Source),
    Name.

%% A file is read once for all passes.
-spec read_once(file:filename(), [term()]) -> plain_source:source().
read_once(File, Defines) ->
    case get({?MODULE, File}) of
        undefined ->
            Source = plain_source:read(File, Defines),
            _ = put({?MODULE, File}, Source),
            Source;
        Source -> Source
    end.

%% @doc The functions of a file that was given, as its compiled form has them.
-spec compiled(file:filename()) -> [atom()].
compiled(File) ->
    #{forms := Forms} = get({?MODULE, File}),
    plain_source:compiled_names(Forms).

-spec keep(module(), kind(), file:filename(), plain_source:source()) -> ok.
keep(Name, Kind, File, Source) ->
    plain_state:set_in(modules, {Name, Kind}, #{functions => maps:get(functions, Source), exports => maps:get(exports, Source), file => File}).

%% @doc The function in Core, with what kind of module it is of, and its file.
-spec find(module(), atom(), arity()) -> {kind(), cerl:cerl(), file:filename()} | none.
find(Module, Function, Arity) -> find([user, lib, otp], Module, Function, Arity).

-spec find([kind()], module(), atom(), arity()) -> {kind(), cerl:cerl(), file:filename()} | none.
find([Kind | Kinds], Module, Function, Arity) ->
    ensure(Module, Kind),
    case plain_state:find_in(modules, {Module, Kind}) of
        {ok, #{functions := #{{Function, Arity} := Core}, file := File}} -> {Kind, Core, File};
        {ok, _} when Kind =:= user -> none;
        _ -> find(Kinds, Module, Function, Arity)
    end;
find([], _, _, _) -> none.

-spec ensure(module(), kind()) -> ok.
ensure(_, user) -> ok;
ensure(Module, Kind) ->
    case plain_state:find_in(modules, {Module, Kind}) of
        {ok, _} -> ok;
        error ->
            plain_state:set_in(modules, {Module, Kind}, none),
            load(Module, Kind, path(Module, Kind))
    end.

-spec load(module(), kind(), file:filename() | none) -> ok.
load(_, _, none) -> ok;
load(Module, Kind, File) ->
    case filelib:is_regular(File) of
        true ->
            #{library_defines := Own} = plain_state:get(options),
            keep(Module, Kind, File, without(Kind, Module, plain_source:read_library(File, Own ++ lists:usort(plain_state:get(defines)))));
        false -> ok
    end.

%% OTP's functions of texts that go by the tables of Unicode are left out.
-spec without(kind(), module(), plain_source:source()) -> plain_source:source().
without(otp, string, #{functions := Functions} = Source) ->
    Tables = [{titlecase, 1}, {casefold, 1}, {take, 2}, {take, 3}, {take, 4}, {nth_lexeme, 3}, {next_grapheme, 1}, {pad, 2}, {pad, 3}, {pad, 4}, {equal, 3}, {equal, 4}],
    Source#{functions := maps:without(Tables, Functions)};
without(_, _, Source) -> Source.

-spec path(module(), kind()) -> file:filename() | none.
path(Module, lib) -> filename:join(library(), atom_to_list(Module) ++ ".erl");
path(Module, otp) ->
    case lists:member(Module, from_otp()) of
        true -> filename:join([code:lib_dir(stdlib), "src", atom_to_list(Module) ++ ".erl"]);
        false -> none
    end.

%% @doc Whether the library has a module of this name, or OTP's own is taken.
-spec in_library(module()) -> boolean().
in_library(Module) -> lists:member(Module, from_otp()) orelse filelib:is_regular(path(Module, lib)).

%% The modules of OTP whose own source is translated where it is called.
-spec from_otp() -> [module()].
from_otp() ->
    [lists, queue, orddict, ordsets, proplists, gb_trees, gb_sets, dict, sets, string, array, digraph, sofs, calendar,
     filename, erl_internal].

%% @doc The folder of the library.
-spec library() -> file:filename().
library() ->
    case os:getenv("PULSEFARM_ERL_LIB") of
        false -> filename:join([filename:dirname(filename:dirname(code:which(?MODULE))), "priv", "lib"]);
        Folder -> Folder
    end.

%% @doc What a module of a kind exports, or nothing where there is none.
-spec exported(module(), kind()) -> [{atom(), arity()}].
exported(Module, Kind) ->
    case plain_state:find_in(modules, {Module, Kind}) of
        {ok, #{exports := Exports}} -> [Export || {Name, _} = Export <- Exports, Name =/= module_info];
        _ -> []
    end.

%% @doc Whether a module that was given doesn't export this function, so that who calls it by its module gets `undef'.
-spec hidden(module(), atom(), arity()) -> boolean().
hidden(Module, Function, Arity) ->
    lists:member(Module, plain_state:get(users)) andalso Function =/= module_info andalso not lists:member({Function, Arity}, exported(Module, user)).

%% @doc What OTP's own module of this name exports, where the library has that module.
-spec of_otp(module()) -> [{atom(), arity()}].
of_otp(Module) ->
    Given = lists:member(Module, plain_state:get(users)),
    case not Given andalso (Module =:= erlang orelse in_library(Module)) andalso code:ensure_loaded(Module) of
        {module, _} -> [Export || {Name, Arity} = Export <- Module:module_info(exports), Name =/= module_info,
                                  Module =:= erlang orelse find(Module, Name, Arity) =/= none];
        _ -> []
    end.

%% @doc Whether a module that was given has a function of this name.
-spec has(module(), atom()) -> boolean().
has(Module, Function) ->
    case plain_state:find_in(modules, {Module, user}) of
        {ok, #{functions := Functions}} -> lists:keymember(Function, 1, maps:keys(Functions));
        error -> false
    end.

%% @doc The file of a module that was given.
-spec file(module()) -> file:filename().
file(Module) ->
    {ok, #{file := File}} = plain_state:find_in(modules, {Module, user}),
    File.
