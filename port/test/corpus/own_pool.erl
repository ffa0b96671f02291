%% Workers leave when they were idle for a while, and a job may go to one that has just left.
-module(own_pool).
-export([main/0, race/0]).

main() ->
    W = spawn(fun worker/0),
    {done(W, 1), done(W, 2)}.

race() ->
    W = spawn(fun worker/0),
    one = done(W, one),
    timer:sleep(100),
    case is_pid(whereis(idle)) of
        true -> two = done(W, two);
        false -> ok
    end.

worker() ->
    receive
        {job, Job, From} ->
            whereis(idle) =:= undefined andalso register(idle, self()),
            From ! {done, Job},
            worker()
    after 100 -> left
    end.

done(W, Job) ->
    W ! {job, Job, self()},
    receive {done, Job} -> Job after 60000 -> lost end.
