%% @doc What takes the room of a translation: bytes by module, and the largest functions.
-module(plain_size).
-export([too_large/2, is_too_large/1, by_module/1, largest/1, fits/2]).

%% How many modules and functions are reported.
-define(MODULES, 8).
-define(FUNCTIONS, 3).

%% @doc The sentence that refuses a text which is too large.
-spec too_large(plain_translation:translation(), pos_integer()) -> string().
too_large(#{text := Text} = Translation, Most) ->
    lists:flatten(io_lib:format("the module would have ~w bytes, over ~w (~ts; the largest functions are ~ts); hunt from a root that reaches less, or put a "
                                "smaller module in the place of one", [byte_size(Text), Most, modules(Translation), listed(largest(Translation))])).

%% @doc How much of the room a text takes, and what does.
-spec fits(plain_translation:translation(), pos_integer()) -> iodata().
fits(#{text := Text} = Translation, Most) -> io_lib:format("~w of ~w bytes: ~ts", [byte_size(Text), Most, modules(Translation)]).

%% @doc Whether a translation is refused by such a sentence.
-spec is_too_large([plain_translation:refusal()]) -> boolean().
is_too_large(Refusals) -> [x || {_, _, "the module would have " ++ _} <- Refusals] =/= [].

-spec modules(plain_translation:translation()) -> iodata().
modules(Translation) -> listed(lists:sublist(by_module(Translation), ?MODULES)).

-spec listed([{pos_integer(), string()}]) -> iodata().
listed(Sizes) -> lists:join(", ", [io_lib:format("~ts ~w", [Name, Bytes]) || {Bytes, Name} <- Sizes]).

%% @doc The bytes of each module, and of what binds them, the largest first.
-spec by_module(plain_translation:translation()) -> [{pos_integer(), string()}].
by_module(Translation) ->
    Sums = lists:foldl(fun({Bytes, Row}, Sums) -> maps:update_with(module(Row), fun(Sum) -> Sum + Bytes end, Bytes, Sums) end, #{}, sizes(Translation)),
    lists:reverse(lists:sort([{Bytes, Name} || {Name, Bytes} <- maps:to_list(Sums)])).

%% @doc The largest functions, each with its module.
-spec largest(plain_translation:translation()) -> [{pos_integer(), string()}].
largest(Translation) ->
    Sized = lists:reverse(lists:sort([{Bytes, lists:flatten(io_lib:format("~ts of ~ts", [Name, module(Row)]))} || {Bytes, #{name := Name} = Row} <- sizes(Translation)])),
    lists:sublist(Sized, ?FUNCTIONS).

%% The bytes of each function.
-spec sizes(plain_translation:translation()) -> [{pos_integer(), plain_map:row()}].
sizes(#{map := Rows, text := Text}) ->
    Lines = [byte_size(Line) + 1 || Line <- binary:split(Text, <<"\n">>, [global, trim])],
    sizes(Rows, 1, Lines).

-spec sizes([plain_map:row()], pos_integer(), [pos_integer()]) -> [{pos_integer(), plain_map:row()}].
sizes([#{line := First} = Row | Rows], At, Lines) ->
    Own = lists:nthtail(First - At, Lines),
    Next = case Rows of [#{line := Line} | _] -> Line; [] -> First + length(Own) end,
    {Mine, Later} = lists:split(min(Next - First, length(Own)), Own),
    [{lists:sum(Mine), Row} | sizes(Rows, Next, Later)];
sizes([], _, _) -> [].

-spec module(plain_map:row()) -> string().
module(#{file := none}) -> "what binds them";
module(#{file := File}) -> filename:basename(File, ".erl").
