%% @doc Names of variables in the text: those of the source where they may stand, each once in a function.
-module(plain_names).
-export([variable/1, new/0]).

%% @doc A name for a variable of the source.
-spec variable(plain_tree:variable()) -> plain_text:expression().
variable({v, {Written, _}}) ->
    Names = plain_state:get(names),
    case plain_state:get(short) of
        true ->
            Number = maps:get(short, Names, 0),
            plain_state:set_in(names, short, Number + 1),
            {var, letters(Number)};
        false -> {var, unique(readable(Written), Names)}
    end.

%% @doc A name for a value that the source doesn't name.
-spec new() -> plain_text:expression().
new() -> variable({v, {0, 0}}).

-spec letters(non_neg_integer()) -> string().
letters(Number) when Number < 26 -> [$A + Number];
letters(Number) -> letters(Number div 26 - 1) ++ letters(Number rem 26).

-spec readable(atom() | integer()) -> string().
readable(Written) when is_integer(Written) -> "V";
readable(Written) ->
    Name = [C || C <- atom_to_list(Written), C < 128],
    case Name of
        [C | _] when C >= $A, C =< $Z -> Name;
        [$_, C | Rest] when C >= $A, C =< $Z -> [C | Rest];
        [$_, C | Rest] when C >= $a, C =< $z -> [C - 32 | Rest];
        _ -> "V"
    end.

-spec unique(string(), map()) -> string().
unique(Name, Names) ->
    Number = maps:get(Name, Names, 0),
    plain_state:set_in(names, Name, Number + 1),
    Numbered = Name ++ integer_to_list(Number),
    case {Number =:= 0 andalso Name =/= "V", maps:is_key(Numbered, Names)} of
        {true, _} -> Name;
        {false, true} -> unique(Name, plain_state:get(names));
        {false, false} ->
            plain_state:set_in(names, Numbered, 1),
            Numbered
    end.
