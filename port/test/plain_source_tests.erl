-module(plain_source_tests).
-include("units.hrl").

%% A process keeps the last reading of a file of the library, and no other.
one_reading_test() ->
    {Kept, Same, Again} = in_process(fun() ->
        plain_state:put(options, plain_translation:defaults()),
        File = filename:join(plain_modules:library(), "gen.erl"),
        Plain = plain_source:read_library(File, []),
        Late = plain_source:read_library(File, ['LATE_ANSWERS']),
        Same = erts_debug:same(Late, plain_source:read_library(File, ['LATE_ANSWERS'])),
        Again = plain_source:read_library(File, []),
        {[Named || {{plain_source, Named}, _} <- get()] =:= [File], Same, {Again =:= Plain, Again =/= Late}}
    end),
    ?assertEqual({true, true, {true, true}}, {Kept, Same, Again}).

%% A node that translates many sources, each under macros of its own, keeps no reading of theirs: such literals are
%% never freed, and there is room for so many.
many_sources_test() ->
    Sources = [filename:join([plain_modules:library(), "..", "..", "examples", Name]) || Name <- ["bank.erl", "cache.erl"]],
    Before = {persistent_term:info(), entries()},
    [{ok, _} = plain_translation:translate([Source], (plain_translation:defaults())#{library_defines => Own})
     || Source <- Sources, Own <- [[], ['CALL_TIMEOUTS']]],
    ?assertEqual(Before, {persistent_term:info(), entries()}).

%% The layout of terms and rare directives are there where a text of the source, or an atom, has them.
directives_test() ->
    Of = fun(Form) ->
        Wanted = plain_source:wants(#{forms => [Form], exports => []}),
        [Macro || Macro <- Wanted, lists:member(Macro, ['PRETTY', 'RARE_FORMATS'])]
    end,
    Texts = ["~w ~s 5p", "~p", "x ~30.2.0tp", "~lP", "~*w", "~.16#", "~+", "~W", "it ends ~5", "50% p"],
    ?assertEqual([[], ['PRETTY'], ['PRETTY'], ['PRETTY', 'RARE_FORMATS'], ['RARE_FORMATS'], ['RARE_FORMATS'], ['RARE_FORMATS'],
                  ['RARE_FORMATS'], ['PRETTY', 'RARE_FORMATS'], []], [Of({string, 1, Text}) || Text <- Texts]),
    ?assertEqual([['PRETTY'], []], [Of({atom, 1, Atom}) || Atom <- ['~p', 'p']]).

entries() -> [Named || {{plain_source, Named}, _} <- get()].

in_process(Run) ->
    {Pid, Monitor} = spawn_monitor(fun() -> exit({value, Run()}) end),
    receive {'DOWN', Monitor, process, Pid, {value, Value}} -> Value end.
