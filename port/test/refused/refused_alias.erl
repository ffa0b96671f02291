-module(refused_alias).
-export([main/0]).
main() -> monitor(process, self(), [{alias, demonitor}]).
%% refused: 3: erlang:monitor/3 with an alias or other options is not translated; take a plain monitor(process, P)
