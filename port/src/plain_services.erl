%% @doc Services: processes that do what Erlang does by tables which all processes share. Only those that are used are started.
-module(plain_services).
-export([all/0, any/0, used/0, begun/0, ticks/0, tied/0]).

%% @doc All services, in the order in which they start. The clock comes first: its ticker is the first process that a root starts, and goes last.
-spec all() -> [atom()].
all() -> [pf_clock, pf_names, ets, pf_dets, pf_dictionary, rand, pf_cells, pf_leader, pf_ties].

%% @doc Whether the pass before found one to be used.
-spec any() -> boolean().
any() -> begun() =/= [].

%% @doc Those that the pass before found to be used.
-spec begun() -> [atom()].
begun() -> [Service || Service <- all(), maps:is_key(Service, plain_state:get(services))].

%% @doc Those that this pass finds to be used.
-spec used() -> #{atom() => true}.
used() ->
    Called = [{Module, Function} || {function, Module, Function, _, _} <- plain_state:keys(wanted)],
    Clients = [Service || {Service, Function} <- Called, lists:member(Service, all()), lists:member(Function, plain_reach:client(Service))],
    maps:from_list([{Service, true} || Service <- Clients ++ [pf_clock || plain_state:get(clock)]]).

%% @doc Whether links and monitors are asked for, so that what is done to them is kept.
-spec tied() -> boolean().
tied() -> maps:is_key(pf_ties, plain_state:get(services)).

%% @doc Whether a root starts the clock with its ticker.
-spec ticks() -> boolean().
ticks() ->
    #{library_defines := Defines} = plain_state:get(options),
    lists:member(pf_clock, begun()) andalso not lists:keymember('PATIENCE', 1, Defines).
