%% @doc Ranges of seeds that are judged beside each other. Where each run has to be judged by its report, one process after
%% the other would wait for the farm most of the time.
-module(plain_waves).
-export([first/3]).

%% How many seeds a range has.
-define(SEEDS, 20).
-type judge() :: fun((non_neg_integer(), pos_integer()) -> plain_hunt:found()).

%% @doc What is found of the least seed of these, or none and the seeds that are left out.
-spec first(non_neg_integer(), pos_integer(), judge()) -> plain_hunt:found().
first(From, To, Judge) -> first(From, To, Judge, []).

-spec first(non_neg_integer(), pos_integer(), judge(), [non_neg_integer()]) -> plain_hunt:found().
first(From, To, _, Before) when From >= To -> {none, Before};
first(From, To, Judge, Before) ->
    Next = min(From + ?SEEDS * erlang:system_info(schedulers_online), To),
    Judged = [judged(Pid, Monitor) || {Pid, Monitor} <- [begun(A, min(A + ?SEEDS, Next), Judge) || A <- lists:seq(From, Next - 1, ?SEEDS)]],
    case [Found || Found <- Judged, element(1, Found) =/= none] of
        [Least | _] -> Least;
        [] -> first(Next, To, Judge, Before ++ lists:append([Left || {none, Left} <- Judged]))
    end.

%% A range is judged by a process that knows what this one does, as the traced form.
-spec begun(non_neg_integer(), pos_integer(), judge()) -> {pid(), reference()}.
begun(From, To, Judge) ->
    Known = get(),
    spawn_monitor(fun() ->
        [put(Key, Value) || {Key, Value} <- Known],
        exit({judged, Judge(From, To)})
    end).

-spec judged(pid(), reference()) -> plain_hunt:found().
judged(Pid, Monitor) ->
    receive
        {'DOWN', Monitor, process, Pid, {judged, Found}} -> Found;
        {'DOWN', Monitor, process, Pid, Reason} -> error({seeds, Reason})
    end.
