%% @doc Random modules: the value on Erlang is the value here. Erlang's compiler takes out M#{K := V} where nothing uses what it gives, and
%% so the error of a key that isn't there; with no_copt it keeps it, as the translation does.
-module(check_random).
-export([check/0]).

-define(MODULES, 500).

-spec check() -> ok.
check() ->
    [one(Number) || Number <- lists:seq(1, ?MODULES)],
    ok.

-spec one(pos_integer()) -> boolean().
one(Number) ->
    Name = "random_" ++ integer_to_list(Number),
    File = checks:room(Name ++ ".erl"),
    ok = file:write_file(File, random_modules:source(Name, Number)),
    Value = checks:value_on_erlang(File, main, [no_copt]),
    Seen = case checks:translate([File]) of
        {ok, Out, _} -> element(1, checks:run(Out, "main", 0));
        Refused -> Refused
    end,
    Wanted = lists:flatten(io_lib:format("finished ~w", [checks:normal(Value)])),
    checks:expect(Name, Wanted, Seen).
