-module(alone_tests).
-include_lib("eunit/include/eunit.hrl").

set_test_() ->
    {foreach, fun alone:start/0, fun alone:stop/1,
     [fun(Pid) -> {"answers", ?_assertEqual(here, alone:ask(Pid))} end,
      fun(Pid) -> {"lives", ?_assert(is_process_alive(Pid))} end,
      fun(Pid) -> [?_assert(is_pid(Pid)), {"is watched", fun() -> watched(Pid) end}] end]}.

watched(Pid) ->
    _ = Pid,
    {reductions, _} = process_info(self(), reductions).
