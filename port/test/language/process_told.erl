%% What a process may ask of another: its name, its dictionary, whether it waits, its leader.
-module(process_told).
-export([main/0]).

main() ->
    Me = self(),
    One = spawn(fun() -> register(one, self()), put(color, red), put(size, 3), Me ! ready, receive stop -> ok end end),
    Other = spawn(fun() -> Me ! ready, receive stop -> ok end end),
    [receive ready -> ok end || _ <- [1, 2]],
    timer:sleep(20),
    {registered_name, Name} = process_info(One, registered_name),
    {dictionary, Own} = process_info(One, dictionary),
    Several = process_info(One, [status, registered_name]),
    Nameless = {process_info(Other, registered_name), process_info(Other, [registered_name]), process_info(Other, dictionary)},
    Mine = {process_info(Me, [registered_name, status]), process_info(Me, registered_name)},
    Leader = process_info(Other, group_leader) =:= {group_leader, group_leader()},
    Waits = process_info(Other, status),
    M = monitor(process, One),
    One ! stop,
    receive {'DOWN', M, process, One, normal} -> ok end,
    Gone = {process_info(One, registered_name), process_info(One, [status]), process_info(One, dictionary), whereis(one)},
    {Name, lists:sort(Own), Several, Nameless, Mine, Leader, Waits, Gone, tried(fun() -> process_info(here, status) end),
     tried(fun() -> process_info(here, [status]) end)}.

tried(F) -> try F() catch error:R -> R end.
