-module(refused_pinfo).
-export([main/0]).
main() ->
    _ = process_info(self(), reductions),
    _ = process_info(spawn(fun() -> ok end), memory),
    _ = process_info(self(), [registered_name, heap_size]),
    _ = erlang:system_info(procs),
    process_info(self()).
%% refused: 4: erlang:process_info(_, reductions) is not translated, other arguments are (port/ENCODINGS.md); write what you need of it yourself
%% refused: 5: erlang:process_info(_, memory) is not translated, other arguments are (port/ENCODINGS.md); write what you need of it yourself
%% refused: 6: erlang:process_info(_, heap_size) is not translated, other arguments are (port/ENCODINGS.md); write what you need of it yourself
%% refused: 7: erlang:system_info(procs) is not translated, other arguments are (port/ENCODINGS.md); write what you need of it yourself
%% refused: 8: erlang:process_info/1 looks into the machine, which the profile can't; keep what you ask for in a process of your own
