%% @doc Answers as text, or as JSON: one object on a line. What pulsefarm itself says has the objects of docs/JSON.md; what this part adds
%% has objects of its own, in which a place of the source is a file, a line and a function.
-module(plain_json).
-export([put/2, of_line/1, place/1, object/1]).

%% The least number that a double doesn't hold apart from the next.
-define(LEAST_LARGE, 9007199254740992).
-type value() :: non_neg_integer() | boolean() | iodata() | {object, object()}.
-type object() :: [{atom() | binary(), value()}].
%% A line as text, without its end, and the same as an object.
-type line() :: {unicode:chardata(), object()}.
-export_type([line/0, object/0]).

%% @doc Puts lines out, in the format that was asked for.
-spec put([line()], plain_words:asked()) -> ok.
put(Lines, #{format := json}) -> plain_out:put([[object(Object), "\n"] || {_, Object} <- Lines]);
put(Lines, _) -> plain_out:put([[Text, "\n"] || {Text, _} <- Lines]).

%% @doc The object of a line of pulsefarm.
-spec of_line(binary()) -> object().
of_line(Line) ->
    Shapes = [{<<"^(no failure) in ([0-9]+) seeds$">>, fun([_, N]) -> [{failure, false}, {seeds, value(N)}] end},
              {<<"^(stopped) after ([0-9]+) seeds$">>, fun([_, N]) -> [{stopped, true}, {seeds, value(N)}] end},
              {<<"^(holds|fails|refused|no verdict) ([0-9]+) seeds, least ([0-9]+): (.*)$">>,
               fun([Verdict, N, Least, Outcome]) -> [{property, Verdict}, {seeds, value(N)}, {least, value(Least)} | of_line(Outcome)] end},
              {<<"^([A-Z][0-9]+) at ([0-9]+)$">>, fun([Code, At]) -> [{refusal, Code}, {at, value(At)}] end},
              {<<"^([A-Z][0-9]+)$">>, fun([Code]) -> [{refusal, Code}] end},
              {<<"^(no verdict)$">>, fun([Word]) -> [{property, Word}] end},
              {<<"^(schedule|deadlock) (.*)$">>, fun([Word, Rest]) -> [{Word, Rest}] end},
              {<<"^([^ ]+) (.*)$">>, fun([Word, Rest]) -> [{Word, value(Rest)}] end},
              {<<"^(.*)$">>, fun([Word]) -> [{Word, true}] end}],
    shaped(Line, Shapes).

-spec shaped(binary(), [{binary(), fun(([binary()]) -> object())}]) -> object().
shaped(Line, [{Expression, Object} | Others]) ->
    case re:run(Line, Expression, [{capture, all_but_first, binary}, dotall]) of
        {match, Parts} -> Object(Parts);
        nomatch -> shaped(Line, Others)
    end.

%% Digits alone are a number, where a double can hold it.
-spec value(binary()) -> value().
value(Text) ->
    case re:run(Text, <<"^(0|[1-9][0-9]*)$">>) =/= nomatch andalso binary_to_integer(Text) of
        Number when is_integer(Number), Number < ?LEAST_LARGE -> Number;
        _ -> Text
    end.

%% @doc The keys of a place: in the library it is the module.
-spec place(plain_translation:place() | none) -> object().
place({Kind, File, Line, Function}) when Kind =:= user; Kind =:= called -> [{file, File}, {line, Line}, {function, plain_words_back:function(Function)}];
place({_, _, _, {'fun', {Module, _, _}}}) -> [{library, atom_to_list(Module)}];
place({_, _, _, {Module, _, _}}) -> [{library, atom_to_list(Module)}];
place(none) -> [].

%% @doc An object as text.
-spec object(object()) -> iodata().
object(Pairs) -> ["{", lists:join(",", [[string(key(Key)), ":", written(Value)] || {Key, Value} <- Pairs]), "}"].

-spec key(atom() | binary()) -> binary().
key(Key) when is_atom(Key) -> atom_to_binary(Key);
key(Key) -> Key.

-spec written(value()) -> iodata().
written(Number) when is_integer(Number) -> integer_to_list(Number);
written(Truth) when is_boolean(Truth) -> atom_to_list(Truth);
written({object, Pairs}) -> object(Pairs);
written(Text) -> string(Text).

-spec string(unicode:chardata()) -> iodata().
string(Text) ->
    Characters = case unicode:characters_to_list(Text) of
        Whole when is_list(Whole) -> Whole;
        {_, Before, _} -> Before ++ [16#FFFD]
    end,
    ["\"", unicode:characters_to_binary([escaped(C) || C <- Characters]), "\""].

-spec escaped(char()) -> unicode:chardata().
escaped($") -> "\\\"";
escaped($\\) -> "\\\\";
escaped($\n) -> "\\n";
escaped($\t) -> "\\t";
escaped(C) when C < 32 -> io_lib:format("\\u~4.16.0b", [C]);
escaped(C) -> [C].
