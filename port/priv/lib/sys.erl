%% What a server is asked for from outside: its state, to hold and go on, and its end; and what a process of one's own
%% makes of that. The rest of sys isn't translated. As those of gen_server:call/2, the 5,000 ms of a call without a time
%% never pass.
-module(sys).
-compile([export_all, nowarn_export_all]).
-include("pf_late.hrl").
-spec get_state(term()) -> term().
get_state(S) -> asked(S, get_state, {sys, get_state, [S]}).

-spec get_state(term(), term()) -> term().
get_state(S, T) -> asked(S, get_state, {sys, get_state, [S, T]}, T).

-spec replace_state(term(), fun((term()) -> term())) -> term().
replace_state(S, F) -> asked(S, {replace_state, F}, {sys, {replace_state, F}, [S]}).

-spec replace_state(term(), fun((term()) -> term()), term()) -> term().
replace_state(S, F, T) -> asked(S, {replace_state, F}, {sys, {replace_state, F}, [S, T]}, T).

-spec terminate(term(), term()) -> ok.
terminate(S, Reason) -> asked(S, {terminate, Reason}, {sys, terminate, [S, Reason]}).

-spec terminate(term(), term(), term()) -> ok.
terminate(S, Reason, T) -> asked(S, {terminate, Reason}, {sys, terminate, [S, Reason, T]}, T).

-spec suspend(term()) -> ok.
suspend(S) -> asked(S, suspend, {sys, suspend, [S]}).

-spec suspend(term(), term()) -> ok.
suspend(S, T) -> asked(S, suspend, {sys, suspend, [S, T]}, T).

-spec resume(term()) -> ok.
resume(S) -> asked(S, resume, {sys, resume, [S]}).

-spec resume(term(), term()) -> ok.
resume(S, T) -> asked(S, resume, {sys, resume, [S, T]}, T).

-spec asked(term(), term(), term()) -> term().
asked(S, What, Call) ->
    R = sent(S, What, Call),
    receive
        {?TAG(R), V} -> demonitor(R, [flush]), answered(V);
        {'DOWN', R, process, _, Why} -> exit({Why, Call})
    end.

-spec asked(term(), term(), term(), term()) -> term().
asked(S, What, Call, infinity) -> asked(S, What, Call);
asked(S, What, Call, T) ->
    R = sent(S, What, Call),
    receive
        {?TAG(R), V} -> demonitor(R, [flush]), answered(V);
        {'DOWN', R, process, _, Why} -> exit({Why, Call})
    after T -> demonitor(R, [flush]), exit({timeout, Call})
    end.

-spec sent(term(), term(), term()) -> reference().
sent(S, What, Call) ->
    case gen_server:where(S) of
        undefined -> exit({noproc, Call});
        P when P =:= self() -> exit({calling_self, Call});
        P ->
            R = monitor(process, P),
            P ! {system, {self(), ?TAG(R)}, What},
            R
    end.

-spec answered(term()) -> term().
answered({ok, V}) -> V;
answered({error, {callback_failed, {_, _}, {Class, Why}}}) -> error({callback_failed, {sys, get_state}, {Class, Why}});
answered(ok) -> ok.

-spec handle_system_msg(term(), {pid(), term()}, term(), module(), term(), term()) -> term().
handle_system_msg(get_state, From, Parent, Mod, Debug, Misc) ->
    answer(From, state_of(Mod, Misc)),
    Mod:system_continue(Parent, Debug, Misc);
handle_system_msg({replace_state, F}, From, Parent, Mod, Debug, Misc) ->
    {State, New} = replaced(Mod, F, Misc),
    answer(From, {ok, State}),
    Mod:system_continue(Parent, Debug, New);
handle_system_msg(suspend, From, Parent, Mod, Debug, Misc) -> answer(From, ok), held(Parent, Mod, Debug, Misc);
handle_system_msg(resume, From, Parent, Mod, Debug, Misc) -> answer(From, ok), Mod:system_continue(Parent, Debug, Misc);
handle_system_msg({terminate, Reason}, From, Parent, Mod, Debug, Misc) ->
    answer(From, ok),
    Mod:system_terminate(Reason, Parent, Debug, Misc).

-spec handle_system_msg(term(), {pid(), term()}, term(), module(), term(), term(), term()) -> term().
handle_system_msg(Request, From, Parent, Mod, Debug, Misc, _) ->
    handle_system_msg(Request, From, Parent, Mod, Debug, Misc).

%% nothing but what sys sends is taken
-spec held(term(), module(), term(), term()) -> term().
held(Parent, Mod, Debug, Misc) ->
    receive
        {'EXIT', Parent, Why} -> Mod:system_terminate(Why, Parent, Debug, Misc);
        {system, From, get_state} -> answer(From, state_of(Mod, Misc)), held(Parent, Mod, Debug, Misc);
        {system, From, {replace_state, F}} ->
            {State, New} = replaced(Mod, F, Misc),
            answer(From, {ok, State}),
            held(Parent, Mod, Debug, New);
        {system, From, suspend} -> answer(From, ok), held(Parent, Mod, Debug, Misc);
        {system, From, Request} -> handle_system_msg(Request, From, Parent, Mod, Debug, Misc)
    end.

-spec answer({pid(), term()}, term()) -> term().
answer({P, R}, What) -> P ! {R, What}.

-spec state_of(module(), term()) -> term().
state_of(Mod, Misc) ->
    case erlang:function_exported(Mod, system_get_state, 1) of
        true -> Mod:system_get_state(Misc);
        false -> {ok, Misc}
    end.

-spec replaced(module(), fun((term()) -> term()), term()) -> {term(), term()}.
replaced(Mod, F, Misc) ->
    case erlang:function_exported(Mod, system_replace_state, 2) of
        true -> {ok, State, New} = Mod:system_replace_state(F, Misc), {State, New};
        false -> New = F(Misc), {New, New}
    end.

-spec debug_options(term()) -> [].
debug_options(_) -> [].

-spec handle_debug(term(), term(), term(), term()) -> term().
handle_debug(Debug, _, _, _) -> Debug.

-spec get_log(term()) -> [].
get_log(_) -> [].

-spec print_log(term()) -> ok.
print_log(_) -> ok.
