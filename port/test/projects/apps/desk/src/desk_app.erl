-module(desk_app).
-behaviour(application).
-export([start/2, stop/1]).

start(normal, []) -> {ok, spawn_link(fun desk:loop/0)}.

stop(_) -> ok.
