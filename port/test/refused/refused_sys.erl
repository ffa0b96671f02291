-module(refused_sys).
-export([main/0]).
main() -> sys:get_status(a_server).
%% refused: 3: sys:get_status/1 looks into a server from outside, which is not translated; add a call to the server that answers it
