%% @doc The standard output, written to the descriptor that was given, so that what is written there before and after keeps its place; and
%% which says where it can't be written: Erlang's own takes a text and learns of a reader that has gone only later.
-module(plain_out).
-export([put/1, kept/1]).
-compile({no_auto_import, [put/2, get/1]}).

%% As many bytes as a pipe takes whole or not at all, since the virtual machine sets the descriptor not to wait.
-define(PIECE, 4096).
-define(PAUSE, 2).
-define(KEPT, {?MODULE, kept}).

%% @doc Puts a text there. Where nobody reads it any more the error is `terminated'; where it can't be written for another reason, `unwritten'.
-spec put(iodata() | unicode:chardata()) -> ok.
put(Text) ->
    case erlang:get(?KEPT) of
        undefined -> pieces(output(), bytes(Text));
        Before ->
            _ = erlang:put(?KEPT, [bytes(Text) | Before]),
            ok
    end.

%% @doc What a function answers, and what it would put there.
-spec kept(fun(() -> Answer)) -> {Answer, binary()}.
kept(Call) ->
    _ = erlang:put(?KEPT, []),
    try
        Answer = Call(),
        {Answer, iolist_to_binary(lists:reverse(erlang:get(?KEPT)))}
    after erlang:erase(?KEPT)
    end.

%% The handle of descriptor 1, which belongs to this process.
-spec output() -> term().
output() ->
    case erlang:get(?MODULE) of
        undefined ->
            {ok, Output} = prim_file:file_desc_to_ref(1, []),
            _ = erlang:put(?MODULE, Output),
            Output;
        Output -> Output
    end.

-spec pieces(term(), binary()) -> ok.
pieces(_, <<>>) -> ok;
pieces(Output, <<Piece:?PIECE/binary, Rest/binary>>) ->
    piece(Output, Piece),
    pieces(Output, Rest);
pieces(Output, Last) -> piece(Output, Last).

-spec piece(term(), binary()) -> ok.
piece(Output, Piece) ->
    case prim_file:write(Output, Piece) of
        {error, Busy} when Busy =:= eagain; Busy =:= ewouldblock ->
            timer:sleep(?PAUSE),
            piece(Output, Piece);
        Written -> written(Written)
    end.

-spec bytes(iodata() | unicode:chardata()) -> binary().
bytes(Text) ->
    case unicode:characters_to_binary(Text) of
        Bytes when is_binary(Bytes) -> Bytes;
        _ -> iolist_to_binary(Text)
    end.

-spec written(ok | {error, file:posix() | badarg | terminated}) -> ok.
written(ok) -> ok;
written({error, epipe}) -> erlang:error(terminated);
written({error, Reason}) -> erlang:error({unwritten, Reason}).
