%% @doc Where a server of the source takes a message: the clause of its callback that the message fits.
-module(plain_callback).
-export([place/3]).

%% @doc The place of that clause, by what the process runs and by the message: the first of several that the message fits; none where the
%% source doesn't show it.
-spec place(iodata() | unknown, binary(), plain_translation:translation()) -> {only | first, plain_translation:place()} | none.
place(unknown, _, _) -> none;
place(Role, Message, #{marks := Places}) ->
    case string:lexemes(lists:flatten(io_lib:format("~ts", [Role])), " ") of
        [Kind, Name] when Kind =:= "gen_server"; Kind =:= "gen_statem" ->
            Module = list_to_atom(Name),
            case [File || {user, File, _, {Of, _, _}} <- maps:values(Places), Of =:= Module, filename:extension(File) =:= ".erl"] of
                [File | _] -> clause(callback(Kind, term(Message)), Module, File);
                [] -> none
            end;
        _ -> none
    end.

%% A message as a term; pids and references are opaque.
-spec term(binary()) -> {ok, term()} | none.
term(Message) ->
    try {ok, plain_commands:term(Message)}
    catch error:_ -> none
    end.

%% The callback, and the arguments that are known.
-spec callback(string(), {ok, term()} | none) -> {atom(), arity(), [term()]} | none.
callback(_, none) -> none;
callback(_, {ok, {Own, _, _}}) when Own =:= system; Own =:= 'EXIT' -> none;
callback("gen_server", {ok, {'$gen_call', _, Request}}) -> {handle_call, 3, [Request]};
callback("gen_server", {ok, {'$gen_cast', Message}}) -> {handle_cast, 2, [Message]};
callback("gen_server", {ok, Message}) -> {handle_info, 2, [Message]};
callback("gen_statem", {ok, {'$gen_call', From, Request}}) -> {handle_event, 4, [{call, From}, Request]};
callback("gen_statem", {ok, {'$gen_cast', Message}}) -> {handle_event, 4, [cast, Message]};
callback("gen_statem", {ok, Message}) -> {handle_event, 4, [info, Message]}.

-spec clause({atom(), arity(), [term()]} | none, module(), file:filename()) -> {only | first, plain_translation:place()} | none.
clause(none, _, _) -> none;
clause({Function, Arity, Arguments}, Module, File) ->
    Fitting = [erl_anno:line(Anno) || {function, _, Name, Of, Clauses} <- forms(File), Name =:= Function, Of =:= Arity,
                                      {clause, Anno, Patterns, _, _} <- Clauses, fit(lists:sublist(Patterns, length(Arguments)), Arguments)],
    case Fitting of
        [Line] -> {only, {user, File, Line, {Module, Function, Arity}}};
        [Line | _] -> {first, {user, File, Line, {Module, Function, Arity}}};
        [] -> none
    end.

%% The forms of a file, which is read once; macros stay what they are.
-spec forms(file:filename()) -> [tuple()].
forms(File) ->
    case get({?MODULE, File}) of
        undefined ->
            Read = case epp_dodger:quick_parse_file(File) of {ok, Forms} -> Forms; _ -> [] end,
            _ = put({?MODULE, File}, Read),
            Read;
        Known -> Known
    end.

-spec fit([erl_parse:abstract_expr()], [term()]) -> boolean().
fit(Patterns, Terms) -> lists:all(fun({Pattern, Term}) -> fits(Pattern, Term) end, lists:zip(Patterns, Terms)).

%% Whether a term may fit a pattern, as far as the pattern shows.
-spec fits(tuple(), term()) -> boolean().
fits({Kind, _, Value}, Term) when Kind =:= atom; Kind =:= integer; Kind =:= char; Kind =:= string; Kind =:= float -> Value =:= Term;
fits({nil, _}, Term) -> Term =:= [];
fits({tuple, _, Elements}, Term) -> is_tuple(Term) andalso tuple_size(Term) =:= length(Elements) andalso fit(Elements, tuple_to_list(Term));
fits({cons, _, Head, Tail}, [First | Rest]) -> fits(Head, First) andalso fits(Tail, Rest);
fits({cons, _, _, _}, _) -> false;
fits({match, _, A, B}, Term) -> fits(A, Term) andalso fits(B, Term);
fits({record, _, Name, _}, Term) when is_atom(Name) -> is_tuple(Term) andalso tuple_size(Term) > 0 andalso element(1, Term) =:= Name;
fits({map, _, _}, Term) -> is_map(Term);
fits({bin, _, _}, Term) -> is_binary(Term);
fits(_, _) -> true.
