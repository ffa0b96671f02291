%% @doc A project as it is in a folder: its applications, one in the folder itself or several in `apps', and the
%% sources of what they depend on; their files, their options, and what their descriptions say of them.
-module(plain_application).
-export([read/1, needed/1, module_text/1]).
-export_type([project/0]).

%% What the description of an application says.
-type application() :: #{name := atom(), folder := file:filename(), mod := {module(), term()} | none,
                         env := [{atom(), term()}], needs := [atom()]}.
-type project() :: #{own := [atom()], known := [application()], sources := [file:filename()],
                     tests := [file:filename()], others := [file:filename()], includes := [file:filename()],
                     defines := [atom() | {atom(), term()}], compiled := [file:filename()]}.

%% @doc Reads the applications of a folder, those that they depend on, and the options of rebar.config.
-spec read(file:filename()) -> {ok, project()} | {error, iodata()}.
read(Folder) ->
    Own = case descriptions(Folder) of [] -> below(Folder, ["apps/*", "lib/*"]); _ -> [Folder] end,
    Given = below(Folder, ["_checkouts/*", "_build/default/lib/*", "_build/test/lib/*", "deps/*"]),
    case {Own, options([filename:join(Place, "rebar.config") || Place <- lists:usort([Folder | Own])])} of
        {[], _} -> {error, [Folder, ": there is no src/NAME.app.src, and none in apps"]};
        {_, {error, Sentence}} -> {error, Sentence};
        {_, {ok, Options}} -> described(Folder, Own, Given, Options)
    end.

-spec below(file:filename(), [string()]) -> [file:filename()].
below(Folder, Patterns) -> [Found || Pattern <- Patterns, Found <- files(Folder, Pattern), descriptions(Found) =/= []].

-spec files(file:filename(), string()) -> [file:filename()].
files(Folder, Pattern) -> lists:sort(filelib:wildcard(filename:join(Folder, Pattern))).

-spec descriptions(file:filename()) -> [file:filename()].
descriptions(Folder) ->
    case filelib:is_dir(filename:join(Folder, "src")) of
        true -> files(Folder, "src/*.app.src") ++ files(Folder, "ebin/*.app");
        false -> []
    end.

-spec described(file:filename(), [file:filename()], [file:filename()], [term()]) -> {ok, project()} | {error, iodata()}.
described(Folder, Own, Given, Options) ->
    case {applications(Own), applications(Given)} of
        {{ok, Applications}, {ok, Others}} ->
            Names = [Name || #{name := Name} <- Applications],
            Dependencies = once(Others, Names),
            Known = Applications ++ Dependencies,
            {ok, #{own => Names, known => Known, sources => sources(Applications),
                   tests => lists:append([files(Place, "test/*.erl") || Place <- Own]),
                   others => sources(Dependencies), includes => includes(Folder, Known, Options),
                   defines => [Macro || {d, Macro} <- Options] ++ [{Macro, Value} || {d, Macro, Value} <- Options]
                              ++ ['TEST', 'EUNIT'],
                   compiled => [filename:join(Place, "ebin") || Place <- Given]}};
        {{error, Sentence}, _} -> {error, Sentence};
        {_, {error, Sentence}} -> {error, Sentence}
    end.

%% The first of each name that isn't there before.
-spec once([application()], [atom()]) -> [application()].
once([#{name := Name} = First | Rest], Before) ->
    case lists:member(Name, Before) of
        true -> once(Rest, Before);
        false -> [First | once(Rest, [Name | Before])]
    end;
once([], _) -> [].

-spec sources([application()]) -> [file:filename()].
sources(Applications) ->
    lists:append([files(Folder, "src/*.erl") ++ files(Folder, "src/*/*.erl") || #{folder := Folder} <- Applications]).

%% Where headers are looked for; `NAME/include/HEADER.hrl' is below the folder that the application is in.
-spec includes(file:filename(), [application()], [term()]) -> [file:filename()].
includes(Folder, Known, Options) ->
    Own = [filename:join(Place, Dir) || #{folder := Place} <- Known, Dir <- ["include", "src", "test"]],
    Own ++ [filename:join(Folder, Dir) || {i, Dir} <- Options]
        ++ lists:usort([filename:dirname(Place) || #{folder := Place} <- Known, Place =/= Folder]).

-spec applications([file:filename()]) -> {ok, [application()]} | {error, iodata()}.
applications([]) -> {ok, []};
applications([Folder | Folders]) ->
    [Description | _] = descriptions(Folder),
    case {file:consult(Description), applications(Folders)} of
        {{ok, [{application, Name, Reported} | _]}, {ok, Others}} ->
            First = #{name => Name, folder => Folder, mod => proplists:get_value(mod, Reported, none),
                      env => proplists:get_value(env, Reported, []), needs => proplists:get_value(applications, Reported, [])},
            {ok, [First | Others]};
        {{ok, [{application, _, _} | _]}, Error} -> Error;
        {{ok, _}, _} -> {error, [Description, ": there is no {application, Name, ..} in it"]};
        {{error, Reason}, _} -> {error, [Description, ": ", file:format_error(Reason)]}
    end.

%% What erlc is given: erl_opts, and that of the profile test.
-spec options([file:filename()]) -> {ok, [term()]} | {error, iodata()}.
options([]) -> {ok, []};
options([File | Files]) ->
    case {file:consult(File), options(Files)} of
        {{ok, Terms}, {ok, Others}} ->
            Test = proplists:get_value(test, proplists:get_value(profiles, Terms, []), []),
            {ok, proplists:get_value(erl_opts, Terms, []) ++ proplists:get_value(erl_opts, Test, []) ++ Others};
        {{error, enoent}, Others} -> Others;
        {{error, Reason}, _} -> {error, [File, ": ", file:format_error(Reason)]};
        {_, Error} -> Error
    end.

%% @doc The sources of dependencies whose modules are named by an atom in the project, or in such a source; the others
%% aren't read.
-spec needed(project()) -> [file:filename()].
needed(#{known := Known, sources := Sources, tests := Tests, others := Others, includes := Includes}) ->
    Headers = [Header || Folder <- Includes, Header <- files(Folder, "*.hrl")],
    closed(lists:usort([Mod || #{mod := {Mod, _}} <- Known] ++ atoms(Sources ++ Tests ++ Headers)), Others).

-spec closed([atom()], [file:filename()]) -> [file:filename()].
closed(Atoms, Files) ->
    case lists:partition(fun(File) -> lists:member(list_to_atom(filename:basename(File, ".erl")), Atoms) end, Files) of
        {[], _} -> [];
        {Named, Rest} -> Named ++ closed(lists:usort(Atoms ++ atoms(Named)), Rest)
    end.

-spec atoms([file:filename()]) -> [atom()].
atoms(Files) ->
    [Atom || File <- Files, {ok, Text} <- [file:read_file(File)],
             {ok, Tokens, _} <- [erl_scan:string(binary_to_list(Text))], {atom, _, Atom} <- Tokens].

%% @doc The module by which the library knows the applications. Where there are several, a process isn't known to be of
%% one.
-spec module_text(project()) -> iodata().
module_text(#{own := Own, known := Known}) ->
    One = case Own of
        [Name] -> io_lib:format("~p", [Name]);
        _ -> "prim:raw(exit, {refused, application, get_env, 1})"
    end,
    ["-module(pf_application).\n-export([own/0, env/1, mod/1, needs/1]).\nown() -> ", One, ".\n",
     function("env", [{Name, Env} || #{name := Name, env := Env} <- Known], []),
     function("mod", [{Name, Mod} || #{name := Name, mod := Mod} <- Known], none),
     function("needs", [{Name, Needs} || #{name := Name, needs := Needs} <- Known], [])].

-spec function(string(), [{atom(), term()}], term()) -> iodata().
function(Name, Clauses, Else) ->
    [[io_lib:format("~s(~p) -> ~p;~n", [Name, Application, Value]) || {Application, Value} <- Clauses],
     io_lib:format("~s(_) -> ~p.~n", [Name, Else])].
