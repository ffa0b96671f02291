%% package: rabbitmq-server
%% modules: ranch_server.beam
-module(ranch_listeners).
-export([main/0, race/0]).

main() ->
    started(),
    Least = ranch_server:get_max_connections(web),
    ok = ranch_server:set_max_connections(web, 20),
    Most = ranch_server:get_max_connections(web),
    ok = ranch_server:set_connections_sup(web, 1, self()),
    Seen = {Least, Most, ranch_server:get_connections_sup(web, 1) =:= self(), ranch_server:get_protocol_options(web)},
    ok = gen_server:stop(ranch_server), % else it would look for the table of who has ended
    Seen.

%% Who stops a listener removes its options, while another starts one of the same name.
race() ->
    started(),
    {Stops, Monitor} = spawn_monitor(fun() -> ranch_server:cleanup_listener_opts(web) end),
    ok = ranch_server:set_new_listener_opts(web, 30, #{}, [], []),
    receive {'DOWN', Monitor, process, Stops, normal} -> ok end,
    30 = ranch_server:get_max_connections(web).

started() ->
    ranch_server = ets:new(ranch_server, [ordered_set, public, named_table]),
    {ok, _} = ranch_server:start_link(),
    ok = ranch_server:set_new_listener_opts(web, 10, #{}, [], []).
