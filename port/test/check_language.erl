%% @doc Constructs of the language: the value of each module on Erlang is its value here.
-module(check_language).
-export([check/0]).

-spec check() -> ok.
check() ->
    [one(File) || File <- lists:sort(filelib:wildcard(checks:folder("language/*.erl")))],
    ok.

-spec one(file:filename()) -> boolean().
one(File) ->
    Name = filename:basename(File),
    Value = checks:normal(checks:value_on_erlang(File, main)),
    case checks:translate([File]) of
        {ok, Out, _} ->
            {Outcome, _} = checks:run(Out, "main", 1),
            checks:expect(Name, lists:flatten(io_lib:format("finished ~w", [Value])), Outcome);
        Refused -> checks:expect(Name, taken, Refused)
    end.
