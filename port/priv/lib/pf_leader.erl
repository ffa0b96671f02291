%% The group leader of all processes, which drops the output that it is sent.
-module(pf_leader).
-compile([export_all, nowarn_export_all]).
-spec start() -> term().
start() -> prim:raw(register, 'port@leader', spawn(fun() -> serve() end)).

-spec ask() -> pid().
ask() -> whereis('port@leader').

-spec serve() -> no_return().
serve() ->
    receive
        {io_request, From, As, Request} -> From ! {io_reply, As, done(Request)}, serve();
        _ -> serve()
    end.

%% what asks for input has no answer
-spec done(term()) -> ok.
done({put_chars, _, _}) -> ok;
done({put_chars, _, _, _, _}) -> ok;
done({put_chars, _}) -> ok;
done({put_chars, _, _, _}) -> ok;
done(_) -> prim:raw(exit, {refused, io, request, 2}).
