%% What is in the mailbox of a process. It is asked for where nobody else can go, so nothing comes meanwhile: who
%% is asked takes all messages out and sends them to itself again, in the same order. Each receive of a program that
%% asks so has a clause for the question.
-module(pf_mailbox).
-compile([export_all, nowarn_export_all]).
-spec of_process(pid()) -> list().
of_process(P) when P =:= self() -> own();
of_process(P) ->
    R = make_ref(),
    P ! {'port@look', self(), R},
    receive {'port@seen', R, L} -> L end.

%% who is asked goes on with its receive
-spec show(pid(), reference()) -> term().
show(P, R) -> P ! {'port@seen', R, own()}.

-spec own() -> list().
own() ->
    R = make_ref(),
    self() ! R,
    L = taken(R),
    [self() ! M || M <- L],
    self() ! R,
    receive R -> L end.

-spec taken(reference()) -> list().
taken(R) ->
    receive
        R -> [];
        M -> [M | taken(R)]
    end.
