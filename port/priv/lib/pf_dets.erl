%% The tables of dets and their files: one process keeps them all, and each request is done in one piece. A file is one
%% of the run, which begins with none; it has what the last close left of its table.
-module(pf_dets).
-compile([export_all, nowarn_export_all]).
-spec ask(term()) -> term().
ask(Q) ->
    R = make_ref(),
    'port@dets' ! {dets, self(), R, Q},
    receive
        {R, ok, V} -> V;
        {R, error} -> error(badarg);
        {R, refused, F, A} -> prim:raw(exit, {refused, dets, F, A})
    end.

-spec start() -> term().
start() -> prim:raw(register, 'port@dets', spawn(fun() -> serve([], []) end)).

%% Ts: {Name, {File, Type, KeyPos, Access, Ram}, AutoSave, Users, Fixed, Objects sorted};
%% Files: {File, Type, KeyPos, Objects}
-spec serve(Ts :: list(), Files :: list()) -> no_return().
serve(Ts, Files) ->
    receive
        {dets, P, R, {open, Name, Config, Save}} ->
            case opened(lists:keyfind(Name, 1, Ts), Name, Config, Save, P, Ts, Files) of
                {error, Why} -> P ! {R, ok, {error, Why}}, serve(Ts, Files);
                refused -> P ! {R, refused, open_file, 2}, serve(Ts, Files);
                T ->
                    monitor(process, P),
                    P ! {R, ok, {ok, Name}},
                    serve(lists:keystore(Name, 1, Ts, T), noted(Config, Files))
            end;
        {dets, P, R, {reopen, File}} ->
            case {lists:keyfind(File, 1, Files), is_open(File, Ts)} of
                {false, _} -> P ! {R, ok, {error, {file_error, File, enoent}}}, serve(Ts, Files);
                {_, true} -> P ! {R, refused, open_file, 1}, serve(Ts, Files);
                {{_, Type, Pos, L}, false} ->
                    monitor(process, P),
                    P ! {R, ok, {ok, R}},
                    serve([{R, {File, Type, Pos, read_write, false}, 180000, [P], [], L} | Ts], Files)
            end;
        {dets, P, R, {close, Name}} ->
            case lists:keyfind(Name, 1, Ts) of
                {_, Config, Save, Users, Fix, L} ->
                    case lists:member(P, Users) of
                        true ->
                            P ! {R, ok, ok},
                            closed([{Name, Config, Save, lists:delete(P, Users), lists:delete(P, Fix), L}], Ts, Files);
                        false -> P ! {R, ok, {error, not_owner}}, serve(Ts, Files)
                    end;
                false -> P ! {R, ok, {error, not_owner}}, serve(Ts, Files)
            end;
        {dets, P, R, tables} -> P ! {R, ok, [element(1, T) || T <- Ts]}, serve(Ts, Files);
        {dets, P, R, {is_file, File}} -> P ! {R, ok, lists:keymember(File, 1, Files)}, serve(Ts, Files);
        {dets, P, R, {info, Name}} -> P ! {R, ok, lists:keyfind(Name, 1, Ts)}, serve(Ts, Files);
        {dets, P, R, Q} ->
            case lists:keyfind(element(2, Q), 1, Ts) of
                false -> P ! {R, error}, serve(Ts, Files);
                T ->
                    case done(Q, P, T) of
                        error -> P ! {R, error}, serve(Ts, Files);
                        refused -> P ! {R, refused, delete_all_objects, 1}, serve(Ts, Files);
                        {V, New} -> P ! {R, ok, V}, serve(lists:keyreplace(element(2, Q), 1, Ts, New), Files)
                    end
            end;
        {'DOWN', _, process, P, _} -> closed([without(P, T) || T <- Ts], Ts, Files)
    end.

-spec without(pid(), tuple()) -> tuple().
without(P, {Name, Config, Save, Users, Fix, L}) ->
    {Name, Config, Save, [U || U <- Users, U =/= P], ets:without(Fix, P), L}.

%% Tables as they are then: one that nobody uses goes into its file.
-spec closed([tuple()], list(), list()) -> no_return().
closed([{Name, {File, Type, Pos, _, _}, _, [], _, L} | Rest], Ts, Files) ->
    closed(Rest, lists:keydelete(Name, 1, Ts), lists:keystore(File, 1, Files, {File, Type, Pos, L}));
closed([T | Rest], Ts, Files) -> closed(Rest, lists:keyreplace(element(1, T), 1, Ts, T), Files);
closed([], Ts, Files) -> serve(Ts, Files).

-spec opened(tuple() | false, term(), tuple(), term(), pid(), list(), list()) -> tuple() | {error, term()} | refused.
opened({_, Config, Save, Users, Fix, L}, Name, Config, _, P, _, _) -> {Name, Config, Save, [P | Users], Fix, L};
opened(false, Name, {File, Type, Pos, Access, Ram}, Save, P, Ts, Files) ->
    case {lists:keyfind(File, 1, Files), is_open(File, Ts)} of
        {_, true} -> refused;
        {false, _} when Access =:= read -> {error, {file_error, File, enoent}};
        {false, _} -> {Name, {File, Type, Pos, Access, Ram}, Save, [P], [], []};
        {{_, _, Other, _}, _} when Other =/= Pos -> {error, {keypos_mismatch, File}};
        {{_, Other, _, _}, _} when Other =/= Type -> {error, {type_mismatch, File}};
        {{_, _, _, L}, _} -> {Name, {File, Type, Pos, Access, Ram}, Save, [P], [], L}
    end;
opened(_, _, _, _, _, _, _) -> {error, incompatible_arguments}.

-spec is_open(term(), list()) -> boolean().
is_open(File, Ts) -> lists:any(fun(T) -> element(1, element(2, T)) =:= File end, Ts).

%% a file is there from its first opening on
-spec noted(tuple(), list()) -> list().
noted({File, Type, Pos, _, _}, Files) ->
    case lists:keymember(File, 1, Files) of true -> Files; false -> [{File, Type, Pos, []} | Files] end.

%% What a request of a table answers, and the table then. In OTP 25 a table that is open for reading alone is no table
%% any more after delete_all_objects.
-spec done(tuple(), pid(), tuple()) -> {term(), tuple()} | error | refused.
done({all, _}, _, T) -> {element(6, T), T};
done({lookup, _, K}, _, T) -> {[X || X <- element(6, T), element(pos(T), X) =:= K], T};
done({keys, _}, _, T) -> {lists:usort([element(pos(T), X) || X <- element(6, T)]), T};
done({sync, _}, _, T) -> {ok, T};
done({fix, _, true, Since}, P, {Name, Config, Save, Users, Fix, L}) ->
    {ok, {Name, Config, Save, Users, ets:fix(Fix, P, Since), L}};
done({fix, _, false, _}, P, {Name, Config, Save, Users, Fix, L}) ->
    {ok, {Name, Config, Save, Users, ets:unfix(Fix, P), L}};
done({clear, _}, _, {_, {_, _, _, read, _}, _, _, _, _}) -> refused;
done(_, _, {_, {File, _, _, read, _}, _, _, _, _} = T) -> {{error, {access_mode, File}}, T};
done({init, _, _}, _, {Name, _, _, _, [_ | _], _} = T) -> {{error, {fixed_table, Name}}, T};
done(Q, _, {Name, {_, Type, Pos, _, _} = Config, Save, Users, Fix, L}) ->
    case changed(Q, Type, Pos, L) of
        {V, L2} -> {V, {Name, Config, Save, Users, Fix, L2}};
        error -> error
    end.

-spec pos(tuple()) -> pos_integer().
pos({_, {_, _, Pos, _, _}, _, _, _, _}) -> Pos.

-spec changed(tuple(), atom(), pos_integer(), list()) -> {term(), list()} | error.
changed({insert, _, Xs}, Type, Pos, L) ->
    case ets:are_objects(Xs, Pos) of true -> {ok, ets:ins_all(Xs, Type, Pos, L)}; false -> error end;
changed({init, _, Xs}, Type, Pos, _) -> {ok, ets:ins_all(Xs, Type, Pos, [])};
changed({insert_new, _, Xs}, Type, Pos, L) ->
    case ets:are_objects(Xs, Pos) of
        true ->
            case lists:any(fun(X) -> lists:keymember(element(Pos, X), Pos, L) end, Xs) of
                true -> {false, L};
                false -> {true, ets:ins_all(Xs, Type, Pos, L)}
            end;
        false -> error
    end;
changed({delete, _, K}, _, Pos, L) -> {ok, [X || X <- L, element(Pos, X) =/= K]};
changed({delete_object, _, O}, _, Pos, L) ->
    case ets:is_object(O, Pos) of true -> {ok, [X || X <- L, X =/= O]}; false -> error end;
changed({clear, _}, _, _, _) -> {ok, []};
changed({remove, _, Os}, _, _, L) -> {ok, [X || X <- L, not lists:member(X, Os)]};
changed({update_counter, _, K, {I, N}}, set, Pos, L) ->
    case lists:keyfind(K, Pos, L) of
        X when is_tuple(X), is_integer(I), I > 0, I =< tuple_size(X) ->
            case is_number(element(I, X)) andalso is_number(N) of
                true -> New = element(I, X) + N, {New, ets:ins(setelement(I, X, New), set, Pos, L)};
                false -> error
            end;
        _ -> error
    end;
changed({update_counter, Name, K, N}, set, Pos, L) when is_number(N) ->
    changed({update_counter, Name, K, {Pos + 1, N}}, set, Pos, L);
changed({update_counter, _, _, _}, _, _, _) -> error.
