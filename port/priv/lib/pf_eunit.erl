%% Tests of EUnit: which there are in a test set, each by its path, and one of them by its path, with the fixtures around it.
-module(pf_eunit).
-compile([export_all, nowarn_export_all]).

%% the tests of a generator: path and title
-spec tests(fun(() -> term())) -> list().
tests(Generator) -> walk(Generator(), [], none).

-spec walk(term(), list(), term()) -> list().
walk(F, Path, Title) when is_function(F, 0) -> [{lists:reverse(Path), Title}];
walk({Line, T}, Path, Title) when is_integer(Line) -> walk(T, Path, Title);
walk({spawn, T}, Path, Title) -> walk(T, Path, Title);
walk({inorder, T}, Path, Title) -> walk(T, Path, Title);
walk({inparallel, T}, Path, Title) -> walk(T, Path, Title);
walk({inparallel, _, T}, Path, Title) -> walk(T, Path, Title);
walk({timeout, _, T}, Path, Title) -> walk(T, Path, Title);
walk({generator, F}, Path, Title) -> walk(F(), Path, Title);
walk({generator, M, F}, Path, Title) -> walk(M:F(), Path, Title);
walk({with, _, Fs}, Path, Title) -> [{lists:reverse([I | Path]), Title} || I <- lists:seq(1, length(Fs))];
walk({setup, S, T}, Path, Title) -> walk(made(T, S()), Path, Title);
walk({setup, Where, S, T}, Path, Title) when is_atom(Where) -> walk(made(T, S()), Path, Title);
walk({setup, S, C, T}, Path, Title) -> X = S(), L = walk(made(T, X), Path, Title), C(X), L;
walk({setup, _, S, C, T}, Path, Title) -> walk({setup, S, C, T}, Path, Title);
walk({foreach, Where, S, Ts}, Path, Title) when is_atom(Where) -> walk({foreach, S, Ts}, Path, Title);
walk({foreach, S, Ts}, Path, Title) -> walk({foreach, S, fun(_) -> ok end, Ts}, Path, Title);
walk({foreach, S, C, Ts}, Path, Title) -> each(Ts, 1, S, C, Path, Title);
walk({foreach, _, S, C, Ts}, Path, Title) -> each(Ts, 1, S, C, Path, Title);
walk({test, _, _}, Path, Title) -> [{lists:reverse(Path), Title}];
walk({Text, T}, Path, Title) -> case is_title(Text) of true -> walk(T, Path, Text); false -> called({Text, T}, Path, Title) end;
walk(Ts, Path, Title) when is_list(Ts) -> all(Ts, 1, Path, Title);
walk(_, _, _) -> prim:raw(exit, {refused, eunit, test_set, 1}).

-spec called(term(), list(), term()) -> list().
called({M, F}, Path, Title) when is_atom(M), is_atom(F) -> [{lists:reverse(Path), Title}];
called(_, _, _) -> prim:raw(exit, {refused, eunit, test_set, 1}).

-spec all(list(), pos_integer(), list(), term()) -> list().
all([], _, _, _) -> [];
all([T | Ts], I, Path, Title) -> walk(T, [I | Path], Title) ++ all(Ts, I + 1, Path, Title).

-spec each(list(), pos_integer(), fun(), fun(), list(), term()) -> list().
each([], _, _, _, _, _) -> [];
each([T | Ts], I, S, C, Path, Title) ->
    X = S(),
    L = walk(made(T, X), [I | Path], Title),
    C(X),
    L ++ each(Ts, I + 1, S, C, Path, Title).

-spec is_title(term()) -> boolean().
is_title([C | _]) -> is_integer(C);
is_title(T) -> is_binary(T).

%% a test set, or what makes one of the value of its setup
-spec made(term(), term()) -> term().
made({Text, F}, X) when is_function(F, 1) -> {Text, F(X)};
made(F, X) when is_function(F, 1) -> F(X);
made(T, _) -> T.

%% one test of a generator
-spec run(fun(() -> term()), list()) -> term().
run(Generator, Path) -> go(Generator(), Path).

-spec go(term(), list()) -> term().
go(F, []) when is_function(F, 0) -> F(), ok;
go({Line, T}, Path) when is_integer(Line) -> go(T, Path);
go({spawn, T}, Path) -> apart(T, Path);
go({inorder, T}, Path) -> go(T, Path);
go({inparallel, T}, Path) -> go(T, Path);
go({inparallel, _, T}, Path) -> go(T, Path);
go({timeout, _, T}, Path) -> go(T, Path);
go({generator, F}, Path) -> go(F(), Path);
go({generator, M, F}, Path) -> go(M:F(), Path);
go({with, X, Fs}, [I]) -> F = lists:nth(I, Fs), F(X), ok;
go({setup, S, T}, Path) -> go(made(T, S()), Path);
go({setup, Where, S, T}, Path) when is_atom(Where) -> go(made(T, S()), Path);
go({setup, S, C, T}, Path) -> X = S(), go(made(T, X), Path), C(X), ok;
go({setup, _, S, C, T}, Path) -> go({setup, S, C, T}, Path);
go({foreach, Where, S, Ts}, Path) when is_atom(Where) -> go({foreach, S, Ts}, Path);
go({foreach, S, Ts}, [I | Path]) -> go(made(lists:nth(I, Ts), S()), Path);
go({foreach, S, C, Ts}, [I | Path]) -> X = S(), go(made(lists:nth(I, Ts), X), Path), C(X), ok;
go({foreach, _, S, C, Ts}, Path) -> go({foreach, S, C, Ts}, Path);
go({test, M, F}, []) -> M:F(), ok;
go({Text, T}, Path) -> case is_title(Text) of true -> go(T, Path); false -> Text:T(), ok end;
go(Ts, [I | Path]) when is_list(Ts) -> go(lists:nth(I, Ts), Path).

%% a test in a process of its own, whose end is that of this one
-spec apart(term(), list()) -> term().
apart(T, Path) ->
    {P, R} = spawn_monitor(fun() -> go(T, Path) end),
    receive
        {'DOWN', R, process, P, normal} -> ok;
        {'DOWN', R, process, P, Why} -> exit(Why)
    end.
