%% @doc What can't be translated, with its place and a cure, and notes on what an encoding adds or loses.
-module(plain_refusal).
-export([refuse/2, refuse/3, record/3, note/2, note_once/2, place/2, why/2]).

-type place() :: {file:filename(), non_neg_integer()}.
-type sentence() :: iodata().
-export_type([place/0, sentence/0]).

%% @doc Leaves the function that is being translated.
-spec refuse(non_neg_integer(), io:format(), [term()]) -> no_return().
refuse(Line, Format, Arguments) -> throw({refuse, plain_state:get(file), Line, io_lib:format(Format, Arguments)}).

-spec refuse(io:format(), [term()]) -> no_return().
refuse(Format, Arguments) -> refuse(plain_state:get(line), Format, Arguments).

%% @doc Keeps a refusal, so that the translation goes on to the next one.
-spec record(file:filename(), non_neg_integer(), sentence()) -> ok.
record(File, Line, Sentence) ->
    plain_state:put(refusals, [{File, Line, lists:flatten(Sentence)} | plain_state:get(refusals)]).

%% @doc A note on the place where the translation is.
-spec note(io:format(), [term()]) -> ok.
note(Format, Arguments) ->
    Text = lists:flatten(io_lib:format("~ts: " ++ Format, [place(plain_state:get(file), plain_state:get(line)) | Arguments])),
    Notes = plain_state:get(notes),
    case lists:keymember(Text, 2, Notes) of
        true -> ok;
        false -> plain_state:put(notes, [{none, Text} | Notes])
    end.

%% @doc A note on an encoding, at the first place of a source that was given where it is used.
-spec note_once(atom(), io:format()) -> ok.
note_once(Subject, Text) ->
    Notes = plain_state:get(notes),
    case plain_state:get(kind) =:= user andalso not lists:keymember(Subject, 1, Notes) of
        false -> ok;
        true ->
            Line = lists:flatten(io_lib:format("~ts: ~ts", [place(plain_state:get(file), plain_state:get(line)), Text])),
            plain_state:put(notes, [{Subject, Line} | Notes])
    end.

-spec place(file:filename(), non_neg_integer()) -> iolist().
place(File, Line) -> io_lib:format("~ts:~w", [filename:basename(File), Line]).

%% @doc Why a function of another module is refused, and what to do.
-spec why(module(), atom()) -> string().
why(erlang, F) when F =:= process_info; F =:= processes; F =:= process_display; F =:= suspend_process; F =:= resume_process;
                    F =:= statistics; F =:= system_info; F =:= system_flag; F =:= memory; F =:= trace; F =:= registered ->
    "looks into the machine, which the profile can't; keep what you ask for in a process of your own";
why(erlang, F) when F =:= halt -> "ends the node, which the profile can't; let the process end by exit/1";
why(erlang, F) when F =:= open_port; F =:= port_command; F =:= port_close; F =:= port_connect ->
    "speaks with the world outside, which the profile can't; put a process of your own in its place";
why(erlang, F) when F =:= monitor; F =:= alias; F =:= unalias -> "with an alias or other options is not translated; take a plain monitor(process, P)";
why(erlang, F) when F =:= phash2; F =:= phash; F =:= md5; F =:= crc32; F =:= adler32 -> "is a hash, and the profile has none; take the term itself as key";
why(erlang, F) when F =:= pid_to_list; F =:= list_to_pid; F =:= ref_to_list; F =:= port_to_list -> "prints what has no fixed name; pass the term itself";
why(Module, _) when Module =:= file; Module =:= gen_tcp; Module =:= gen_udp; Module =:= ssl; Module =:= inet; Module =:= os; Module =:= httpc;
                    Module =:= filelib; Module =:= disk_log; Module =:= mnesia; Module =:= crypto; Module =:= init;
                    Module =:= prim_file; Module =:= ssh; Module =:= file_sorter; Module =:= ram_file ->
    "speaks with the world outside; put a module of that name among the files, written with a process of your own";
why(Module, _) when Module =:= code; Module =:= erl_eval; Module =:= erl_scan; Module =:= erl_parse; Module =:= compile; Module =:= epp ->
    "loads or makes code at run time, which the profile can't; call the function by its module";
why(Module, _) when Module =:= io_lib; Module =:= unicode; Module =:= binary; Module =:= re; Module =:= base64 ->
    "makes or reads text or binaries, which is not translated; keep terms, or put a module of that name among the files";
why(eunit, _) -> "runs tests of EUnit; pulsefarm-erl eunit FOLDER hunts each of them";
why(math, _) -> "is what a machine's library makes of a number; name a module of that name, or count in integers";
why(qlc, _) -> "is a query that is made at run time; evaluate a handle of a table, or take match_object or select of ets";
why(ets, _) -> "is not among the functions of ets that the library has (port/ENCODINGS.md); take insert, lookup, delete, match_object, select";
why(sys, _) -> "looks into a server from outside, which is not translated; add a call to the server that answers it";
why(Module, _) when Module =:= global; Module =:= rpc; Module =:= erpc; Module =:= net_adm; Module =:= net_kernel ->
    "is for several nodes, and the profile has one; call the function itself";
why(erlang, _) -> "is not translated; write it by functions that are (port/ENCODINGS.md)";
why(Module, _) ->
    case plain_modules:in_library(Module) of
        true -> "is not among the functions of this module that the library has (port/ENCODINGS.md); write what you need of it yourself";
        false -> "is not known, and its source is not among the files; name it as one more file"
    end.
