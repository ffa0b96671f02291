%% @doc Facts of OTP on links, monitors, timers, gen_server, gen_statem, supervisors, ets, dets, qlc and reports that no
%% schedule may change: each is the same on Erlang and in each run.
-module(check_facts).
-export([check/0]).

-define(SEEDS, "0..200").

-spec check() -> ok.
check() ->
    Facts = lists:sum([one(File) || File <- lists:sort(filelib:wildcard(checks:folder("facts/*.erl")))]),
    checks:expect("550 facts", 550, Facts),
    ok.

-spec one(file:filename()) -> non_neg_integer().
one(File) ->
    Value = in_room(fun() -> checks:value_on_erlang(File, main) end),
    Wanted = lists:flatten(io_lib:format("finished ~w", [checks:normal(Value)])),
    case checks:translate([File]) of
        {ok, Out, _} -> compared(filename:basename(File), Wanted, Value, checks:hunt(Out, "main", "returns", ?SEEDS));
        Refused ->
            checks:expect(filename:basename(File), taken, Refused),
            0
    end.

%% Files that a run of Erlang makes are in the room, what it prints is dropped, and its input is at its end.
-spec in_room(fun(() -> Value)) -> Value.
in_room(Run) ->
    {ok, Folder} = file:get_cwd(),
    Leader = group_leader(),
    Terminal = spawn_link(fun terminal/0),
    ok = file:set_cwd(os:getenv("ROOM")),
    group_leader(Terminal, self()),
    Value = Run(),
    group_leader(Leader, self()),
    ok = file:set_cwd(Folder),
    unlink(Terminal),
    exit(Terminal, kill),
    Value.

-spec terminal() -> no_return().
terminal() ->
    receive
        {io_request, From, R, {get_line, _, _}} -> From ! {io_reply, R, eof};
        {io_request, From, R, _} -> From ! {io_reply, R, ok}
    end,
    terminal().

-spec compared(string(), string(), [term()], [tuple()]) -> non_neg_integer().
compared(_, Wanted, Value, [{holds, 200, Wanted}]) ->
    checks:pass(length(Value)),
    length(Value);
compared(Name, Wanted, _, Outcomes) ->
    checks:expect(Name, [{holds, 200, Wanted}], Outcomes),
    0.
