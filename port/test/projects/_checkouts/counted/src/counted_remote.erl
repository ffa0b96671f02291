%% Nothing of the project names this module, so it isn't read.
-module(counted_remote).
-include_lib("not_there/include/not_there.hrl").
