%% @doc The traced form takes the choices of the plain one: of each program the runs of some seeds are repeated in it, event by event, and
%% each action of the source has a place.
-module(check_places).
-export([check/0]).

-define(SEEDS, 10).

-spec check() -> ok.
check() ->
    Files = lists:sort(filelib:wildcard(checks:folder("../examples/*.erl"))) ++ [checks:folder("facts/facts_of_supervisors.erl"), checks:folder("facts/facts_of_mailboxes.erl"), checks:folder("commands/supervised.erl")],
    [program(File, Defines) || File <- Files, Defines <- [[], ['FIXED']]],
    ok.

-spec program(file:filename(), [atom()]) -> ok.
program(File, Defines) ->
    Options = (plain_translation:defaults())#{defines => Defines},
    {ok, Out, _} = checks:translate([File], Options),
    Unknown = [Seed || Seed <- lists:seq(1, ?SEEDS), not repeated(File, Options, Out, Seed)],
    checks:expect([filename:basename(File), ": seeds whose places can't be shown"], [], Unknown),
    ok.

-spec repeated(file:filename(), plain_translation:options(), file:filename(), non_neg_integer()) -> boolean().
repeated(File, Options, Out, Seed) ->
    {Text, _} = plain_farm:call(["run", Out, "--root", "main", "--limit", "100000", "--seed", integer_to_list(Seed) | checks:last(Out)]),
    #{events := Events} = plain_report:read(binary:split(Text, <<"\n">>, [global, trim])),
    case plain_replay:places([File], Options, "main", Events) of
        {ok, #{events := Marks}, _} -> length(Marks) =:= length(Events);
        unknown -> false
    end.
