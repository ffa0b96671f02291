%% @doc `rebar3 pulsefarm': the tests of a project, hunted as `pulsefarm-erl eunit' does. The words after it are those
%% of that command.
-module(plain_rebar).
-export([init/1, do/1, format_error/1]).

%% The words of pulsefarm-erl eunit that rebar3 lets through.
-define(WORDS, [seeds, for, test, junit, strategy, weights, workers, limit, property, patience]).

%% @doc Registers the provider with rebar3.
-spec init(term()) -> {ok, term()}.
init(State) ->
    Options = [{Word, undefined, atom_to_list(Word), string, "as pulsefarm-erl eunit has it"} || Word <- ?WORDS],
    Hunts = "Hunts each test of EUnit by pulsefarm",
    Provider = providers:create([{name, pulsefarm}, {module, ?MODULE}, {bare, true}, {deps, [{default, compile}]},
                                 {opts, Options}, {example, "rebar3 pulsefarm --seeds 0..200"}, {short_desc, Hunts},
                                 {desc, Hunts ++ "; the words are those of pulsefarm-erl eunit"}]),
    {ok, rebar_state:add_provider(State, Provider)}.

%% @doc Hunts the tests of the project.
-spec do(term()) -> {ok, term()} | {error, {module(), pos_integer()}}.
do(State) ->
    {Given, _} = rebar_state:command_parsed_args(State),
    Words = lists:append([["--" ++ atom_to_list(Word), Value] || {Word, Value} <- Given, lists:member(Word, ?WORDS)]),
    case pulsefarm_erl:run(["eunit", rebar_state:dir(State) | Words]) of
        0 -> {ok, State};
        Status -> {error, {?MODULE, Status}}
    end.

%% @doc What rebar3 says where it ends with another status than 0.
-spec format_error(pos_integer()) -> iodata().
format_error(1) -> "a test fails in some run";
format_error(Status) -> io_lib:format("pulsefarm-erl eunit ended with status ~w", [Status]).
