%% @doc The small functions that bodies lean on, in the text of the profile: operations that answer an error as a value, the tables of
%% atoms, timers, and what the traced form needs.
-module(plain_prelude).
-export([texts/0]).

%% @doc The parts that are used.
-spec texts() -> [iodata()].
texts() ->
    Parts = plain_state:keys(prelude),
    Checked = [text(Part) || Part <- Parts],
    Actions = lists:usort([{Function, Arity} || {marked, Function, Arity} <- Parts] ++ [Action || plain_trace:traced(), Action <- own_actions()]),
    Checked ++ [marked(Action) || plain_trace:traced(), Action <- Actions].

%% The actions of the prelude's own functions.
-spec own_actions() -> [{atom(), arity()}].
own_actions() -> [{'!', 2}, {whereis, 1}, {unregister, 1}, {link, 1}, {unlink, 1}, {exit, 1}].

%% An action after its mark.
-spec marked({atom(), arity()}) -> iodata().
marked({'!', 2}) -> "send@m(P,A,B)->whereis(P),A!B.\n";
marked({Spawn, 3}) when Spawn =:= spawn; Spawn =:= spawn_link; Spawn =:= spawn_monitor ->
    Name = atom_to_list(Spawn),
    [Name, "@m(P,M,F,A)->whereis(P),", Name, "(M,start@,[F,A]).\n"];
marked({Function, Arity}) ->
    Arguments = lists:join(",", ["A" ++ integer_to_list(I) || I <- lists:seq(1, Arity)]),
    Name = atom_to_list(Function),
    [Name, "@m(", lists:join(",", ["P" | ["A" ++ integer_to_list(I) || I <- lists:seq(1, Arity)]]), ")->whereis(P),", Name, "(", Arguments, ").\n"].

%% An action within the prelude, which has no place.
-spec action(string(), [string()]) -> iodata().
action(Function, Arguments) -> action(Function, Arguments, "'@0'").

%% An action with the mark of its place.
-spec action(string(), [string()], string()) -> iodata().
action(Function, Arguments, Mark) ->
    case {plain_trace:traced(), Function} of
        {true, "!"} -> ["send@m(", lists:join(",", [Mark | Arguments]), ")"];
        {true, _} -> [Function, "@m(", lists:join(",", [Mark | Arguments]), ")"];
        {false, "!"} -> lists:join("!", Arguments);
        {false, _} -> [Function, "(", lists:join(",", Arguments), ")"]
    end.

-spec waiting() -> string().
waiting() -> case plain_trace:traced() of true -> "whereis('@0'),"; false -> "" end.

%% A clause of an operation: its heads with the place, and its error.
-spec clause(string(), iodata(), iodata()) -> iodata().
clause(Name, Arguments, Rest) -> [Name, "(", case plain_trace:traced() of true -> "S,"; false -> "" end, Arguments, ")", Rest].

%% The same of an operation that acts: it has the mark of its place too.
-spec acting(string(), string(), iodata()) -> iodata().
acting(Name, Arguments, Rest) -> clause(Name, [case plain_trace:traced() of true -> "L,"; false -> "" end, Arguments], Rest).

-spec refused(string()) -> iodata().
refused(Reason) -> ["{x,error,", Reason, case plain_trace:traced() of true -> ",S}"; false -> "}" end].

-spec text(term()) -> iodata().
text({checked, Operation, 2}) when Operation =:= '+'; Operation =:= '-'; Operation =:= '*' ->
    Name = operation(Operation),
    [clause(Name, "A,B", [" when is_integer(A),is_integer(B)->{v,A", atom_to_list(Operation), "B};\n"]), clause(Name, "_,_", ["->", refused("badarith"), ".\n"])];
text({checked, Operation, 2}) when Operation =:= 'div'; Operation =:= 'rem' ->
    Name = operation(Operation),
    [clause(Name, "A,B", [" when is_integer(A),is_integer(B),B/=0->{v,A ", atom_to_list(Operation), " B};\n"]), clause(Name, "_,_", ["->", refused("badarith"), ".\n"])];
text({checked, Sign, 1}) when Sign =:= '-'; Sign =:= '+' ->
    Value = case Sign of '-' -> "-A"; '+' -> "A" end,
    [clause(operation(Sign), "A", [" when is_integer(A)->{v,", Value, "};\n"]), clause(operation(Sign), "_", ["->", refused("badarith"), ".\n"])];
text({checked, '++', 2}) -> two("'c@++'", "A,B", " when is_list(A),is_list(B)->{v,A++B};\n", "_,_");
text({checked, hd, 1}) -> two("c@hd", "[H|_]", "->{v,H};\n", "_");
text({checked, tl, 1}) -> two("c@tl", "[_|T]", "->{v,T};\n", "_");
text({checked, length, 1}) -> two("c@length", "L", " when is_list(L)->{v,length(L)};\n", "_");
text({checked, element, 2}) -> two("c@element", "I,T", " when I>=1,I=<tuple_size(T)->{v,element(I,T)};\n", "_,_");
text({checked, tuple_size, 1}) -> two("c@tuple_size", "T", " when is_tuple(T)->{v,tuple_size(T)};\n", "_");
text({checked, '!', 2}) ->
    [acting("'c@!'", "P,M", [" when is_pid(P)->{v,", action("!", ["P", "M"], "L"), "};\n"]),
     acting("'c@!'", "N,M", [" when is_atom(N)->case ", action("whereis", ["N"], "L"), " of undefined->", refused("badarg"), ";P->{v,", action("!", ["P", "M"], "L"), "} end;\n"]),
     acting("'c@!'", "_,_", ["->", refused("badarg"), ".\n"])];
text({checked, unregister, 1}) ->
    acting("c@unregister", "N", ["->case ", action("whereis", ["N"], "L"), " of undefined->", refused("badarg"), ";_->{v,", action("unregister", ["N"], "L"), "} end.\n"]);
text({checked, Function, 1}) when Function =:= link; Function =:= unlink ->
    Name = atom_to_list(Function),
    [acting("c@" ++ Name, "P", [" when is_pid(P)->{v,", action(Name, ["P"], "L"), "};\n"]), acting("c@" ++ Name, "_", ["->", refused("badarg"), ".\n"])];
text({atoms, Table, Mode}) -> atoms(Table, Mode);
text({gap, Mode}) -> gap(Mode);
text({ended, Kind}) -> [plain_text:atom(plain_reach:short_name({ended, Kind})), "(V)->exit({{", plain_text:atom(Kind), ",V},[]}).\n"];
text({error, e@f, 0}) -> "e@f()->{x,error,function_clause}.\n";
text({error, e@b, 0}) -> "e@b()->{x,error,badarg}.\n";
text({error, e@c, 1}) -> "e@c(V)->{x,error,{case_clause,V}}.\n";
text({error, e@m, 1}) -> "e@m(V)->{x,error,{badmatch,V}}.\n";
text({marked, _, _}) -> [];
text(raise) -> raise();
text(flush) ->
    ["flush@(infinity,_)->ok;\nflush@(0,R)->", waiting(), "receive{'after',R}->ok end;\nflush@(_,R)->", action("!", ["'port@clock'", "{cancel,self(),R}"]), ",",
     waiting(), "receive{'after',R}->ok end.\n"];
text(arm) ->
    ["arm@(infinity,_)->ok;\narm@(0,R)->", action("!", ["self()", "{'after',R}"]), ";\narm@(T,R) when is_integer(T),T>0->", action("!", ["'port@clock'", "{arm,self(),R,T}"]),
     ";\narm@(_,_)->", action("exit", ["{timeout_value,[]}"]), ".\n"];
text(in_time) -> "time@(infinity,_)->true;\ntime@(T,R) when is_integer(T),T>=0->arm@(T,R),true;\ntime@(_,_)->false.\n";
text(at) -> "at@(S,{x,C,R,[]})->{x,C,R,S};\nat@(_,V)->V.\n";
text(enter) -> "enter@({v,V})->V;\nenter@({x,C,R,[P|S]})->whereis(P),raise@(C,R,[P|S]);\nenter@({x,C,R,S})->whereis('@0'),raise@(C,R,S).\n"
               "raise@(exit,R,_)->exit(R);\nraise@(throw,R,S)->exit({{nocatch,R},S});\nraise@(_,R,S)->exit({R,S}).\n".

%% The end of a call that no dispatcher has: undef of a module that was given, badarg of what is no name; else it is refused.
-spec gap(plain_reach:mode()) -> iodata().
gap(Mode) ->
    Name = plain_text:atom(plain_reach:in_mode('gap@', Mode)),
    Given = [["M==", plain_text:atom(Module)] || Module <- plain_state:get(users), maps:is_key(Module, plain_state:get(atoms))],
    [[[Name, "(", plain_text:atom(M), ",", plain_text:atom(F), ",A)->", action("exit", [["{refused,", plain_text:atom(M), ",", plain_text:atom(F), ",A}"]]), ";\n"]
      || {M, F} <- plain_reach:left_out()],
     [[Name, "(M,_,_) when ", lists:join(";", Given), "->", plain_dispatch:failing(Mode, "undef"), ";\n"] || Given =/= []],
     Name, "(M,F,A) when is_atom(M),is_atom(F)->", action("exit", ["{refused,M,F,A}"]), ";\n",
     Name, "(_,_,_)->", plain_dispatch:failing(Mode, "badarg"), ".\n"].

-spec operation(atom()) -> string().
operation(Operation) -> lists:flatten(io_lib:format("~p", [list_to_atom("c@" ++ atom_to_list(Operation))])).

-spec two(string(), string(), iodata(), string()) -> iodata().
two(Name, Arguments, Rest, Others) -> [clause(Name, Arguments, Rest), clause(Name, Others, ["->", refused("badarg"), ".\n"])].

-spec raise() -> iodata().
raise() ->
    Exit = fun(Reason) -> action("exit", [Reason]) end,
    ["raise@(exit,R)->", Exit("R"), ";\nraise@(throw,R)->", Exit("{{nocatch,R},[]}"), ";\nraise@(_,R)->", Exit("{R,[]}"), ".\n"].

%% The texts of all atoms that stand in the module.
-spec atoms(atom_to_list | list_to_atom | list_to_existing_atom, plain_reach:mode()) -> iodata().
atoms(Table, Mode) ->
    Name = plain_text:atom(plain_reach:in_mode(list_to_atom(atom_to_list(Table) ++ "@"), Mode)),
    {Open, Close} = case Mode of plain -> {"", ""}; _ -> {"{v,", "}"} end,
    Clause = fun(Atom) ->
        {From, To} = case Table of
            atom_to_list -> {plain_text:atom(Atom), plain_text:string(atom_to_list(Atom))};
            _ -> {plain_text:string(atom_to_list(Atom)), plain_text:atom(Atom)}
        end,
        [Name, "(", From, ")->", Open, To, Close, ";\n"]
    end,
    Unknown = [[Name, "([_|_])->", action("exit", ["{refused,erlang,list_to_atom,1}"]), ";\n"] || Table =:= list_to_atom],
    [[Clause(Atom) || Atom <- plain_state:keys(atoms)], Unknown, Name, "(_)->", plain_dispatch:failing(Mode, "badarg"), ".\n"].
