%% An event manager and its handlers: what they get and are asked, those that go, and one that fails.
-module(events).
-export([main/0, init/1, handle_event/2, handle_call/2, handle_info/2, terminate/2]).
-behaviour(gen_event).

init({fails, _}) -> exit(unwilling);
init({Boss, Name}) -> {ok, {Boss, Name, []}}.
handle_event(leave, _) -> remove_handler;
handle_event(break, {_, two, _}) -> error(broken);
handle_event(Event, {Boss, Name, Seen}) -> {ok, {Boss, Name, [Event | Seen]}}.
handle_call(seen, {_, Name, Seen} = State) -> {ok, {Name, lists:reverse(Seen)}, State};
handle_call(go, _) -> {remove_handler, gone}.
handle_info(Message, {Boss, Name, Seen}) -> {ok, {Boss, Name, [{info, Message} | Seen]}}.
terminate(Why, {Boss, Name, _}) -> Boss ! {ended, Name, case Why of {error, {'EXIT', {What, _}}} -> What; _ -> Why end}, terminated.

main() ->
    {ok, Manager} = gen_event:start_link({local, bus}),
    Me = self(),
    A = gen_event:add_handler(bus, {?MODULE, a}, {Me, one}),
    B = gen_event:add_handler(bus, {?MODULE, b}, {Me, two}),
    D = gen_event:add_handler(bus, ?MODULE, {fails, Me}),
    ok = gen_event:sync_notify(bus, first),
    ok = gen_event:notify(bus, second),
    Manager ! hello,
    E = [gen_event:call(bus, {?MODULE, Id}, seen) || Id <- [a, b]],
    F = gen_event:which_handlers(bus),
    ok = gen_event:sync_notify(bus, break),
    G = gen_event:which_handlers(bus),
    H = receive {ended, two, Why} -> Why end,
    I = {gen_event:call(bus, {?MODULE, b}, seen), gen_event:delete_handler(bus, {?MODULE, b}, x), gen_event:delete_handler(bus, {?MODULE, a}, bye)},
    J = receive {ended, one, Args} -> Args end,
    ok = gen_event:add_sup_handler(bus, ?MODULE, {Me, three}),
    K = gen_event:call(bus, ?MODULE, go),
    L = receive {gen_event_EXIT, Left, Normal} -> {Left, Normal} end,
    M = receive {ended, three, Removed} -> Removed end,
    ok = gen_event:add_handler(bus, ?MODULE, {Me, four}),
    ok = gen_event:stop(bus),
    N = receive {ended, four, Stop} -> Stop end,
    {A, B, element(1, D), E, F, G, H, I, J, K, L, M, N, whereis(bus)}.
