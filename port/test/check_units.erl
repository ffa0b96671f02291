%% @doc The unit tests, which EUnit runs too.
-module(check_units).
-export([check/0]).

-spec check() -> ok.
check() ->
    Modules = [list_to_atom(filename:basename(File, ".erl")) || File <- lists:sort(filelib:wildcard(checks:folder("*_tests.erl")))],
    [module(Module) || Module <- Modules],
    ok.

-spec module(module()) -> ok.
module(Module) ->
    {module, Module} = code:ensure_loaded(Module),
    [one(Module, Function) || {Function, 0} <- Module:module_info(exports), lists:suffix("_test", atom_to_list(Function))],
    [[one(Module, Test) || Test <- lists:flatten([Module:Function()])] || {Function, 0} <- Module:module_info(exports), lists:suffix("_test_", atom_to_list(Function))],
    ok.

-spec one(module(), atom() | {non_neg_integer(), fun(() -> term())}) -> boolean().
one(Module, {Line, Test}) -> judged(io_lib:format("~w:~w", [Module, Line]), Test);
one(Module, Function) -> judged(io_lib:format("~w:~w", [Module, Function]), fun Module:Function/0).

-spec judged(iodata(), fun(() -> term())) -> boolean().
judged(Name, Test) ->
    checks:expect(Name, ok, try Test() of _ -> ok catch Class:Reason -> {Class, Reason} end).
