%% @doc Formats of generated terms: each is as on Erlang. Many go through the library itself, compiled here with terms
%% in their encodings; some through translated modules. Reports by proc_lib:format go the second way.
-module(check_formats).
-export([check/0]).

-define(TERMS, 20000).
-define(MODULES, 20).
-define(TOGETHER, 4).
-define(LONGEST, 1000).

-spec check() -> ok.
check() ->
    _ = rand:seed(exsss, {1, 2, 3}),
    Library = library(),
    Same = fun({Format, Arguments}) ->
        Library:format(Format, [encoded(X) || X <- Arguments]) =:= text(Format, Arguments)
    end,
    Differ = [Call || Call <- [call(3) || _ <- lists:seq(1, ?TERMS)], not Same(Call)],
    checks:expect("formats by the library", [], lists:sublist(Differ, 3)),
    [translated([short(Make) || _ <- lists:seq(1, ?TOGETHER)])
     || Make <- [fun formatted/0, fun reported/0], _ <- lists:seq(1, ?MODULES)],
    ok.

%% A call whose text isn't too long for several of them in one run.
-spec short(fun(() -> {string(), string()})) -> {string(), string()}.
short(Make) ->
    case Make() of
        {_, Text} when length(Text) > ?LONGEST -> short(Make);
        Call -> Call
    end.

-spec text(string(), [term()]) -> string().
text(Format, Arguments) -> lists:flatten(io_lib:format(Format, Arguments)).

%% ---- the library in this node

%% The modules of the library under other names, with the ends of a process by them as exits.
-spec library() -> module().
library() ->
    Names = #{io_lib => pf_tested_texts, pf_format => pf_tested_formats, pf_pretty => pf_tested_pretty},
    [compiled(Name, Names) || Name <- maps:keys(Names)],
    maps:get(io_lib, Names).

-spec compiled(module(), #{module() => module()}) -> {module, module()}.
compiled(Name, Names) ->
    File = filename:join([os:getenv("CHECKS"), "..", "priv", "lib", atom_to_list(Name) ++ ".erl"]),
    {ok, Forms} = epp:parse_file(File, [{macros, ['PRETTY', 'RARE_FORMATS']}]),
    {ok, Module, Binary} = compile:forms(renamed(Forms, Names), [nowarn_export_all, export_all]),
    {module, Module} = code:load_binary(Module, File, Binary).

-spec renamed(term(), #{module() => module()}) -> term().
renamed({attribute, Line, module, Name}, Names) -> {attribute, Line, module, maps:get(Name, Names)};
renamed({remote, Line, {atom, _, Module}, Function}, Names) when is_map_key(Module, Names) ->
    {remote, Line, {atom, Line, maps:get(Module, Names)}, Function};
renamed({call, Line, {remote, _, {atom, _, prim}, {atom, _, raw}}, [_, Reason]}, _) ->
    {call, Line, {atom, Line, exit}, [Reason]};
renamed(Form, Names) when is_tuple(Form) -> list_to_tuple(renamed(tuple_to_list(Form), Names));
renamed([Head | Tail], Names) -> [renamed(Head, Names) | renamed(Tail, Names)];
renamed(Other, _) -> Other.

-spec encoded(term()) -> term().
encoded(Map) when is_map(Map) -> {'#map', [{encoded(Key), encoded(Value)} || {Key, Value} <- maps:to_list(Map)]};
encoded(Binary) when is_binary(Binary) -> {'#bin', binary_to_list(Binary)};
encoded(Tuple) when is_tuple(Tuple) -> list_to_tuple(encoded(tuple_to_list(Tuple)));
encoded([Head | Tail]) -> [encoded(Head) | encoded(Tail)];
encoded(Term) -> Term.

%% ---- translated modules

%% Several calls in one module, each with the text that it has on Erlang; those that differ are its value.
-spec translated([{string(), string()}]) -> ok.
translated(Calls) ->
    Name = lists:concat(["formats_", erlang:unique_integer([positive])]),
    File = checks:room(Name ++ ".erl"),
    Numbers = lists:seq(1, length(Calls)),
    Tried = [io_lib:format("c(~w, ~s, ~0p)", [N, Call, Text]) || {N, {Call, Text}} <- lists:zip(Numbers, Calls)],
    ok = file:write_file(File, ["%% coding: latin-1\n-module(", Name, ").\n-export([main/0]).\n",
                                "main() -> [", lists:join(",\n", Tried), "].\n",
                                "c(N, S, Text) -> case lists:flatten(S) of Text -> N; Other -> {N, Other} end.\n"]),
    Wanted = lists:flatten(io_lib:format("finished ~w", [Numbers])),
    case checks:translate([File]) of
        {ok, Out, _} ->
            case checks:run(Out, "main", 1) of
                {Wanted, _} -> checks:pass(length(Calls));
                {Outcome, _} -> checks:expect(["formats of ", File], Wanted, lists:sublist(Outcome, 1000))
            end;
        Refused -> checks:expect(["formats of ", File], taken, Refused)
    end,
    ok.

-spec formatted() -> {string(), string()}.
formatted() ->
    {Format, Arguments} = call(2),
    Floats = [one_of([0.1, -2.5e10, 1.0e-5, 3.0, 123456.789]) || _ <- lists:seq(1, rand:uniform(6))],
    All = {Format ++ " ~p", Arguments ++ [{one_of([floats, a_tag_that_is_longer]), Floats, term(1)}]},
    Call = lists:flatten(io_lib:format("io_lib:format(~0p, ~0p)", tuple_to_list(All))),
    {Call, text(element(1, All), element(2, All))}.

-spec reported() -> {string(), string()}.
reported() ->
    Depth = one_of([unlimited, unlimited, 3, 8]),
    Error = {one_of([error, exit, throw]), reason(), stack()},
    Own = [{initial_call, {m, f, [a]}}, {error_info, Error}, {dictionary, term(2)}],
    Report = [Own, [{neighbour, [{messages, term(2)}]}]],
    {lists:flatten(io_lib:format("proc_lib:format(~0p, latin1, ~w)", [Report, Depth])),
     lists:flatten(proc_lib:format(Report, latin1, Depth))}.

-spec reason() -> term().
reason() ->
    one_of([badarg, undef, function_clause, {badmatch, term(3)}, {case_clause, term(3)}, {badmap, term(3)}, term(3)]).

-spec stack() -> term().
stack() ->
    one_of([[], term(1), [{m, f, [term(2), term(2)], [{file, "m.erl"}, {line, 7}]}, {m, 'G', 1, []}],
            [{erlang, one_of(['+', '/', 'and', put]), [term(1), term(1)], []}, {m, f, 1, [{file, "m.erl"}, {line, 3}]}],
            [{m, f, [term(3)], []}, {proc_lib, init_p, 3, []}], [{m, f, "ab", []}]]).

%% ---- formats and terms

%% A format with its arguments: text, perhaps of several columns or lines, then terms and numbers.
-spec call(pos_integer()) -> {string(), [term()]}.
call(Depth) ->
    Before = one_of(["", "x: ", "a longer text before it\t", "two\nlines ", "\t"]),
    {Formats, Arguments} = lists:unzip([directive(Depth) || _ <- lists:seq(1, rand:uniform(2))]),
    {lists:append([Before | lists:join(" and ", Formats)]), lists:append(Arguments)}.

-spec directive(pos_integer()) -> {string(), [term()]}.
directive(Depth) ->
    T = term(rand:uniform(Depth)),
    case rand:uniform(12) of
        1 -> {"~w", [T]};
        2 -> {"~W", [T, rand:uniform(12)]};
        N when N < 6 -> {"~p", [T]};
        N when N < 8 -> {"~P", [T, rand:uniform(20)]};
        8 -> {"~" ++ integer_to_list(10 + rand:uniform(60)) ++ "p", [T]};
        9 -> {"~*.*P", [40, rand:uniform(20), T, rand:uniform(20)]};
        10 -> {"~0lp", [T]};
        11 ->
            Prefix = one_of(["0x", "", abc, ["a", $b]]),
            {one_of(["~x", "~8X", "~-8.16x", "~6.2.0X"]), [rand:uniform(1000) - 500, Prefix]};
        12 ->
            Formats = ["~b", "~.16b", "~.36B", "~+", "~.8+", "~12.3#", "~6w", "~-9w", "~c", "~3c", "~5.2..c"],
            {one_of(Formats), [rand:uniform(200)]}
    end.

-spec term(non_neg_integer()) -> term().
term(0) ->
    case rand:uniform(7) of
        1 -> one_of([a, bc, 'A b', a_rather_long_atom, 'end', an_atom_that_is_really_longer_than_the_others_are]);
        2 -> rand:uniform(1000000000) - 500000000;
        3 -> one_of(["text", "a longer text that goes on", "x\n\"y\"", lists:duplicate(90, $x), [200, 256], "\e\b"]);
        4 -> one_of([<<"bin">>, <<"a longer binary that goes on and on and on">>, <<1, 2, 3>>, <<"abcdefgh", 1, 2>>]);
        5 -> list_to_binary([rand:uniform(256) - 1 || _ <- lists:seq(1, rand:uniform(50))]);
        6 -> one_of([[], {}, #{}, <<>>]);
        7 -> rand:uniform(10)
    end;
term(Depth) ->
    Terms = fun(Most) -> [term(Depth - 1) || _ <- lists:seq(1, rand:uniform(Most))] end,
    case rand:uniform(6) of
        1 -> Terms(6);
        2 -> list_to_tuple(Terms(6));
        3 -> list_to_tuple([one_of([tag, a_longer_tag, 'T', gen_server_call_of_a_name]) | Terms(5)]);
        4 -> maps:from_list([{key(N, Depth), term(Depth - 1)} || N <- lists:seq(1, rand:uniform(4))]);
        5 -> lists:seq(1, rand:uniform(40));
        6 -> term(0)
    end.

%% The keys of a map are of one kind, as among kinds maps and binaries are in another order here.
-spec key(pos_integer(), pos_integer()) -> term().
key(N, Depth) -> {key, N, one_of([a, "text", term(min(Depth - 1, 1))])}.

-spec one_of([Term]) -> Term.
one_of(Terms) -> lists:nth(rand:uniform(length(Terms)), Terms).
