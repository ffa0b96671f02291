%% package: erlang-folsom
%% modules: folsom_sample_slide_server.beam
-module(folsom_slides).
-export([main/0, race/0, trim/2]).

main() ->
    {ok, Server} = folsom_sample_slide_server:start_link(?MODULE, self(), 1),
    receive {trimmed, 1} -> ok end,
    ok = folsom_sample_slide_server:resize(Server, 2),
    receive {trimmed, 2} -> ok end,
    Monitor = monitor(process, Server),
    folsom_sample_slide_server:stop(Server),
    receive {'DOWN', Monitor, process, Server, Reason} -> Reason end.

%% A server is called while another stops it.
race() ->
    {ok, Server} = folsom_sample_slide_server:start_link(?MODULE, self(), 1000),
    spawn(fun() -> folsom_sample_slide_server:stop(Server) end),
    ok = folsom_sample_slide_server:resize(Server, 2000).

trim(Reservoir, Window) -> Reservoir ! {trimmed, Window}.
