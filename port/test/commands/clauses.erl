%% Ends by values that fit no clause.
-module(clauses).
-behaviour(gen_server).
-export([main/0, branch/0, match/0, served/0, caught/0, init/1, handle_call/3, handle_cast/2]).

main() ->
    take({name, "Ada"}, 7, <<"bytes">>).

take({age, N}, M, _) -> N + M.

branch() ->
    case answer() of
        {answer, none} -> ok
    end.

match() ->
    {ok, Text} = answer(),
    Text.

answer() -> {answer, "a text"}.

served() ->
    {ok, Server} = gen_server:start(?MODULE, [], []),
    Monitor = monitor(process, Server),
    gen_server:cast(Server, {set, "blue"}),
    receive {'DOWN', Monitor, process, Server, _} -> ok end.

%% What catches an error sees what it sees on Erlang, whatever a report says of it.
caught() ->
    Taken = try take({name, "Ada"}, 7, none) catch error:Reason -> Reason end,
    function_clause = Taken,
    ok.

init([]) -> {ok, #{colour => "red"}}.

handle_call(_, _, Colours) -> {reply, ok, Colours}.

handle_cast({get, _}, Colours) -> {noreply, Colours}.
