-module(elements_tests).
-include_lib("eunit/include/eunit.hrl").
one_test() -> ?assertEqual(1, elements:f()).
env_test() -> {ok, 3} = application:get_env(elements, limit), ok = application:set_env(elements, limit, 4), {ok, 4} = application:get_env(elements, limit).
all_test_() ->
  [{"title", fun() -> ok end}, {timeout, 10, fun() -> ok end}, {spawn, fun() -> ok end}, {inorder, [fun() -> ok end, {"t2", ?_assert(true)}]}, {inparallel, [?_assert(true)]},
   {setup, fun() -> 1 end, fun(_) -> ok end, fun(X) -> [?_assertEqual(1, X)] end}, {setup, spawn, fun() -> 1 end, fun(X) -> ?_assertEqual(1, X) end},
   {foreach, fun() -> 2 end, fun(_) -> ok end, [fun(X) -> ?_assertEqual(2, X) end, fun(X) -> {"bad", ?_assertEqual(3, X)} end]},
   {with, 5, [fun(X) -> 5 = X end]}, {generator, fun() -> ?_assert(true) end}, {"deep", [[?_assert(true)]]}].
fix_test_() -> {setup, fun() -> ok end, fun(_) -> ok end, {timeout, 5, [{"in", ?_assert(true)}]}}.
