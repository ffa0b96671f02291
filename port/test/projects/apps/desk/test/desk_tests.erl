-module(desk_tests).
-include_lib("eunit/include/eunit.hrl").

desk_test_() ->
    {foreach, fun start/0, fun stop/1,
     [{"one", ?_assertEqual(3300, desk:serve())},
      {"two", ?_assertEqual([3300, 3600], lists:sort(both()))}]}.

both() ->
    Me = self(),
    [spawn_link(fun() -> Me ! {served, desk:serve()} end) || _ <- [1, 2]],
    [receive {served, Price} -> Price end || _ <- [1, 2]].

start() ->
    {ok, Started} = application:ensure_all_started(desk),
    [counted, desk] = [App || App <- Started, App =/= ledger].

stop(Started) -> [ok = application:stop(App) || App <- lists:reverse(Started)].
