-module(counted_app).
-behaviour(application).
-export([start/2, stop/1]).

start(normal, []) ->
    {ok, First} = application:get_env(counted, first),
    counted:start_link(First).

stop(_) -> ok.
