%% What is wrong with a match specification, in the words of OTP 25, and in its order: arguments of functions from the
%% last to the first. Errors are those of the first clause that has some.
-module(pf_match_errors).
-compile([export_all, nowarn_export_all]).
-spec errors(term()) -> [{error, string()}].
errors([M | Ms]) ->
    case lists:all(fun(X) -> is_tuple(X) andalso tuple_size(X) =:= 3 end, [M | Ms]) of
        true -> of_first([M | Ms]);
        false -> [one("Match program part is not a tuple of arity 3.")]
    end;
errors(_) -> [one("Match programs are not in a list.")].

-spec of_first([tuple()]) -> [{error, string()}].
of_first([]) -> [];
of_first([M | Ms]) -> case of_clause(M) of [] -> of_first(Ms); Errors -> Errors end.

-spec of_clause(tuple()) -> [{error, string()}].
of_clause({H, Gs, Body}) ->
    case in_key(H) of
        none ->
            Vs = pf_match:bound(H, []),
            of_guard(Gs, Vs) ++ of_body(Body, Vs);
        What -> [one(What ++ " found in map key.")]
    end.

%% no key of a pattern may be unknown
-spec in_key(term()) -> none | string().
in_key([P | Ps]) -> case in_key(P) of none -> in_key(Ps); What -> What end;
in_key({'#map', L}) -> in_pairs(L);
in_key({'#bin', _}) -> none;
in_key(P) when is_tuple(P) -> in_key(tuple_to_list(P));
in_key(_) -> none.

-spec in_pairs([{term(), term()}]) -> none | string().
in_pairs([{'_', _} | _]) -> "Underscore";
in_pairs([{K, V} | Pairs]) ->
    case pf_match:number(K) of
        none -> case in_key(V) of none -> in_pairs(Pairs); What -> What end;
        _ -> "Variable"
    end;
in_pairs([]) -> none.

-spec of_guard(term(), list()) -> [{error, string()}].
of_guard(Gs, Vs) when is_list(Gs) -> all(Gs, Vs);
of_guard(_, _) -> [one("Match expression is not a list.")].

-spec of_body(term(), list()) -> [{error, string()}].
of_body([E | Es], Vs) -> all([E | Es], Vs);
of_body(_, _) -> [one("Body clause does not return anything.")].

-spec all(list(), list()) -> [{error, string()}].
all(Es, Vs) -> lists:append([of_term(E, Vs) || E <- Es]).

-spec of_term(term(), list()) -> [{error, string()}].
of_term(T, Vs) when is_atom(T) ->
    case pf_match:number(T) of
        none -> [];
        N -> [one("Variable $" ++ integer_to_list(N) ++ " is unbound.") || not lists:member(N, Vs)]
    end;
of_term(F, _) when is_function(F) -> [];
of_term([H | T], Vs) -> of_term(H, Vs) ++ of_term(T, Vs);
of_term({'#map', L}, Vs) -> all(lists:reverse([V || {_, V} <- L]), Vs) ++ all(lists:reverse([K || {K, _} <- L]), Vs);
of_term({'#bin', _}, _) -> [];
of_term({'#float', _}, _) -> [];
of_term({T}, Vs) when is_tuple(T) -> all(lists:reverse(tuple_to_list(T)), Vs);
of_term(T, Vs) when is_tuple(T) ->
    case tuple_size(T) > 0 andalso is_atom(element(1, T)) andalso pf_match:number(element(1, T)) of
        none -> of_form(element(1, T), tl(tuple_to_list(T)), T, Vs);
        _ -> [one(shown(T) ++ " is neither a function call, nor a tuple (tuples are written {{ ... }}).")]
    end;
of_term(_, _) -> [].

-spec of_form(atom(), list(), tuple(), list()) -> [{error, string()}].
of_form(const, [_], _, _) -> [];
of_form(const, _, T, _) -> [special(const, "called with more than one argument in " ++ shown(T))];
of_form(self, [], _, _) -> [];
of_form(self, _, T, _) -> [special(self, "called with arguments in " ++ shown(T))];
of_form(F, As, T, Vs) ->
    case {pf_match:several(F), As} of
        {true, []} -> [special(F, "called without arguments in " ++ shown(T))];
        {true, _} when F =:= 'andalso'; F =:= 'orelse' -> all(As, Vs);
        {true, _} -> all(lists:reverse(As), Vs);
        {false, _} -> of_function(F, As, Vs)
    end.

-spec of_function(atom(), list(), list()) -> [{error, string()}].
of_function(F, As, Vs) ->
    case pf_match:takes(F, length(As)) of
        true -> all(lists:reverse(As), Vs);
        false ->
            case of_tracing(F) of
                none -> [one("Function " ++ shown(F) ++ "/" ++ integer_to_list(length(As)) ++ why_not(F, As))];
                Name -> [special(Name, "used in wrong dialect")]
            end
    end.

-spec why_not(atom(), list()) -> string().
why_not(get_tcw, []) -> " cannot be called in this context.";
why_not(set_tcw, [_]) -> " cannot be called in this context.";
why_not(_, _) -> " does_not_exist.".

%% forms that specifications for tracing have
-spec of_tracing(atom()) -> atom().
of_tracing(set_seq_token) -> set_seq_trace;
of_tracing(F) ->
    Forms = [is_seq_trace, get_seq_token, message, exception_trace, return_trace, caller, caller_line, process_dump,
             enable_trace, disable_trace, trace, silent, display],
    case lists:member(F, Forms) of true -> F; false -> none end.

-spec special(atom(), string()) -> {error, string()}.
special(F, Text) -> one("Special form '" ++ atom_to_list(F) ++ "' " ++ Text ++ ".").

%% texts are cut at 99 characters
-spec one(string()) -> {error, string()}.
one(Text) -> {error, lists:sublist(Text, 99)}.

%% a term as Erlang's own errors write it
-spec shown(term()) -> string().
shown({'#map', L}) -> "#{" ++ joined([shown(K) ++ "=>" ++ shown(V) || {K, V} <- L]) ++ "}";
shown({'#float', K}) -> exponent(lists:reverse(pf_decimal:format($e, {'#float', K}, 7)));
shown({'#bin', B}) -> pf_pretty:print({'#bin', B}, 1, 0, -1, texts);
shown(T) when is_tuple(T) -> "{" ++ joined([shown(E) || E <- tuple_to_list(T)]) ++ "}";
shown([H | T]) ->
    case pf_format:printable_list([H | T]) of
        true -> pf_format:quoted([H | T], $");
        false -> "[" ++ joined([shown(E) || E <- [H | T]]) ++ "]"
    end;
shown(T) when is_atom(T) -> word(atom_to_list(T));
shown(T) -> pf_format:write(T).

%% no word is reserved here
-spec word(string()) -> string().
word([C | T]) when C >= $a, C =< $z ->
    case lists:all(fun(D) -> pf_format:is_word(D) end, T) of
        true -> [C | T];
        false -> pf_format:quoted([C | T], $')
    end;
word(S) -> pf_format:quoted(S, $').

-spec joined([string()]) -> string().
joined([]) -> [];
joined([T]) -> T;
joined([T | Ts]) -> T ++ "," ++ joined(Ts).

%% an exponent has two digits at least
-spec exponent(string()) -> string().
exponent([D, S | Rest]) when S =:= $+; S =:= $- -> lists:reverse(Rest) ++ [S, $0, D];
exponent(Reversed) -> lists:reverse(Reversed).
