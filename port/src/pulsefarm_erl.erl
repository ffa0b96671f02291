%% @doc The program `pulsefarm-erl': plain Erlang in, and the answers of `pulsefarm' in the words of its source.
-module(pulsefarm_erl).
-export([main/1, run/1, hunt/3, init/1]).

%% @doc The escript's entry: runs the words and ends with their status.
-spec main([string()]) -> no_return().
main(Words) ->
    Status = try run(Words)
    catch
        error:terminated -> 141; % nobody reads the standard output any more
        error:{unwritten, Reason} ->
            plain_command:complain(["pulsefarm-erl: the standard output: ", file:format_error(Reason), "\n"]),
            2
    end,
    halt(Status).

%% @doc Does what the words ask for; its status.
-spec run([string()]) -> 0..255.
run(Words) ->
    _ = io:setopts([{encoding, unicode}]),
    case plain_words:read(Words) of
        {help, Text} ->
            plain_out:put(Text),
            0;
        {refused, Sentence} ->
            plain_command:complain(["pulsefarm-erl: ", Sentence, "\n"]),
            2;
        {ok, Asked} -> plain_command:run(Asked)
    end.

%% @doc For a case of Common Test, or another test: hunts a root, as the words of `hunt' say. The module of the root and
%% the others are files, or modules that are loaded and whose sources are where they were compiled. `ok' where no run
%% fails; else the report is printed, and the error has its line.
-spec hunt({module() | file:filename(), atom()}, [module() | file:filename()], [string()]) -> ok.
hunt({Module, Root}, Others, Words) ->
    Files = [source(Name) || Name <- [Module | Others]],
    Options = lists:append([options(Name) || Name <- [Module | Others], is_atom(Name)]),
    case plain_out:kept(fun() -> run(["hunt" | Files] ++ ["--root", atom_to_list(Root)] ++ Options ++ Words) end) of
        {0, _} -> ok;
        {Status, Report} ->
            io:put_chars(unicode:characters_to_list(Report)),
            error({pulsefarm, case Status of 1 -> fails; _ -> refused end, why(Report)})
    end.

-spec source(module() | file:filename()) -> file:filename().
source(Module) when is_atom(Module) -> proplists:get_value(source, Module:module_info(compile));
source(File) -> File.

%% The folders of headers and the macros by which a module was compiled.
-spec options(module()) -> [string()].
options(Module) ->
    lists:append([case Option of
        {i, Folder} -> ["-I", Folder];
        {d, Name} -> ["-D", atom_to_list(Name)];
        {d, Name, Value} -> ["-D", lists:flatten(io_lib:format("~p=~0p", [Name, Value]))];
        _ -> []
    end || Option <- proplists:get_value(options, Module:module_info(compile), [])]).

%% The line that says why: a crash before the outcome.
-spec why(binary()) -> string().
why(Report) -> why(Report, [<<"^(?:crash|refused) .*$">>, <<"^waits .*$">>, <<"^(?:ended|deadlock|limit).*$">>]).

-spec why(binary(), [binary()]) -> string().
why(Report, [Expression | Others]) ->
    case re:run(Report, Expression, [multiline, {capture, first, list}]) of
        {match, [Line]} -> Line;
        nomatch -> why(Report, Others)
    end;
why(_, []) -> "no answer".

%% @doc The entry of a plugin of rebar3.
-spec init(term()) -> {ok, term()}.
init(State) -> plain_rebar:init(State).
