%% What the flags of a process were before they are set.
-module(flags).
-export([main/0]).

main() ->
    {[apart(F, V) || {F, V} <- [{priority, high}, {priority, x}, {message_queue_data, off_heap}, {message_queue_data, 1}, {sensitive, true}, {sensitive, x},
        {error_handler, other}, {min_heap_size, 500}, {min_heap_size, -1}, {min_bin_vheap_size, 50000}, {fullsweep_after, 5}, {fullsweep_after, x}, {save_calls, 1},
        {save_calls, x}, {max_heap_size, 0}, {nothing, true}, {3, true}, {trap_exit, true}, {trap_exit, 1}]],
     [tried(fun() -> process_flag(trap_exit, V) end) || V <- [true, true, false, false]]}.

%% each in a process of its own
apart(F, V) ->
    Me = self(),
    P = spawn(fun() -> Me ! {self(), tried(fun() -> process_flag(F, V) end)} end),
    receive {P, Seen} -> Seen end.

tried(F) -> try F() catch C:R -> {C, R} end.
