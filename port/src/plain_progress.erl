%% @doc How far a hunt is, on standard error where that is a terminal: a line that the next one writes over.
-module(plain_progress).
-export([is_shown/0, seeds/2, clear/0]).

%% @doc Whether standard error is a terminal, which is asked for once.
-spec is_shown() -> boolean().
is_shown() ->
    case get(?MODULE) of
        undefined ->
            Port = open_port({spawn_executable, "/bin/sh"}, [{args, ["-c", "test -t 2"]}, exit_status, hide]),
            Shown = receive {Port, {exit_status, Status}} -> Status =:= 0 end,
            _ = put(?MODULE, Shown),
            Shown;
        Shown -> Shown
    end.

%% @doc Reports that so many seeds are over, of so many or of those of a time.
-spec seeds(non_neg_integer(), pos_integer() | time) -> ok.
seeds(Done, time) -> line(io_lib:format("~w seeds", [Done]));
seeds(Done, Number) -> line(io_lib:format("~w of ~w seeds", [Done, Number])).

-spec line(iodata()) -> ok.
line(Text) ->
    case is_shown() of
        true -> plain_command:complain(["\r\e[K", Text]);
        false -> ok
    end.

%% @doc Takes the line away.
-spec clear() -> ok.
clear() -> line("").
