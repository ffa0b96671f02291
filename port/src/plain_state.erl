%% @doc What one translation knows so far: the modules that were read, the functions that are wanted, and where
%% in which function it is. It belongs to the process that translates, and a translation has a process of its own.
-module(plain_state).
-compile({no_auto_import, [get/1, put/2]}).
-export([start/2, get/1, put/2, set_in/3, find_in/2, keys/1, fresh/0]).

-type key() ::
    options | services            % what was asked for; what the pass before found to be used
  | modules | users | main        % the modules by name and kind; those that were given; the first of them
  | roots                         % the functions that a run may begin with
  | defines                       % macros for the library, as the sources want them
  | wanted | queue                % functions by key; those that are not written yet
  | functions                     % what was written, last first
  | trees                         % the tree of each function that was read
  | lifted | lifted_names         % funs that became functions: their bodies, their names
  | fun_names                     % the names that the compiler gives to funs
  | funs                          % all funs that are made, with their number of arguments
  | calls | remote_calls          % dispatchers for funs, and for modules that are known at run time
  | exports | prelude
  | atoms | atom_places           % the atoms of the module; where those of the sources stand
  | values | tags                 % the atoms that the sources make values of; those that stand first in tuples
  | monitors | named              % what the sources monitor; whether names are
  | floats                        % whether the module makes floats
  | asked                         % whether mailboxes are asked for
  | narrow                        % whether those alone that stand elsewhere too may name a function
  | known | made                  % the atoms that the passes before found to be made, and those that this pass finds
  | notes | refusals
  | counter | clock | marks       % the last number; whether a time is waited for; what the marks of a traced module say
  | short | short_names | last_name % whether names are short; those that are, and the number of the last
  | origin                        % of what is written: the call in a source that reached it, where that is known
  | file | module | kind | base | function | line | mode % where the translation is
  | names | shapes.               % of the function that is written: names of variables, tuples that are known
-export_type([key/0]).

%% @doc Begins anew. What the pass before found stays in `Services' and `Known', and `Short' asks for short names.
-spec start(map(), #{services := map(), known := map() | all, short := boolean(), narrow := boolean(), named := boolean(), floats := boolean(), asked := boolean()}) -> ok.
start(Options, #{services := Services, known := Known, short := Short, narrow := Narrow, named := Named, floats := Floats, asked := Asked}) ->
    Maps = [modules, wanted, trees, lifted, lifted_names, fun_names, funs, calls, remote_calls, exports, prelude, short_names, atoms, atom_places, values, tags, made, monitors, names, shapes, marks],
    Lists = [users, roots, defines, queue, functions, notes, refusals],
    [put(Key, #{}) || Key <- Maps],
    [put(Key, []) || Key <- Lists],
    put(defines, ['NAMED_MONITORS' || Named] ++ ['TIES' || maps:is_key(pf_ties, Services)]),
    [put(Key, Value) || {Key, Value} <- [{options, Options}, {services, Services}, {known, Known}, {short, Short}, {narrow, Narrow}, {named, Named}, {floats, Floats}, {asked, Asked}, {last_name, 0}, {main, none}, {counter, 0}, {function, none}, {origin, none},
                                         {clock, false}, {file, ""}, {module, none}, {kind, user}, {base, none}, {line, 0}, {mode, plain}]],
    ok.

-spec get(key()) -> term().
get(Key) -> erlang:get({?MODULE, Key}).

-spec put(key(), term()) -> ok.
put(Key, Value) ->
    _ = erlang:put({?MODULE, Key}, Value),
    ok.

%% @doc Sets one entry of a map.
-spec set_in(key(), term(), term()) -> ok.
set_in(Key, Entry, Value) -> put(Key, (get(Key))#{Entry => Value}).

-spec find_in(key(), term()) -> {ok, term()} | error.
find_in(Key, Entry) -> maps:find(Entry, get(Key)).

-spec keys(key()) -> [term()].
keys(Key) -> lists:sort(maps:keys(get(Key))).

%% @doc A number that was not given before.
-spec fresh() -> pos_integer().
fresh() ->
    Number = get(counter) + 1,
    put(counter, Number),
    Number.
