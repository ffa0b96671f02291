%% @doc What a translation takes of its 65,536 bytes: a supervisor with one child, and an application of eleven modules;
%% what is reported where it doesn't fit; and what stops dets itself, as docs/FROM_ERLANG.md has it.
-module(check_room).
-export([check/0]).

-spec check() -> ok.
check() ->
    at_most("a supervisor with one child", 12000, [checks:folder("commands/one_child.erl")], #{}),
    Sources = filelib:wildcard(checks:folder("shop/src/*.erl")),
    Options = #{includes => [checks:folder("shop/include")], defines => [{'MAX_LINES', 20}]},
    at_most("an application", 60000, [checks:folder("shop/main.erl") | Sources], Options),
    too_large(),
    dets_itself().

-spec at_most(string(), pos_integer(), [file:filename()], map()) -> boolean().
at_most(Name, Most, Files, Options) ->
    case checks:translate(Files, Options) of
        {ok, Out, _} ->
            Bytes = filelib:file_size(Out),
            checks:expect(io_lib:format("~s takes ~w bytes, ~w at most", [Name, Bytes, Most]), Bytes =< Most);
        Refused -> checks:expect(Name, taken, Refused)
    end.

%% What is too large is refused with what takes the room, by module.
-spec too_large() -> ok.
too_large() ->
    File = checks:room("too_large.erl"),
    Functions = [io_lib:format("f~w(X) -> {~p, f~w(X)}.~n", [I, lists:duplicate(20, {I, some, longer, words}),
            I + 1]) || I <- lists:seq(1, 200)],
    ok = file:write_file(File, ["-module(too_large).\n-export([main/0]).\nmain() -> f1(1).\nf201(X) -> X.\n",
            Functions]),
    {refused, [{_, 1, Sentence}]} = checks:translate([File]),
    checks:expect(["what takes the room: ", Sentence], match,
                  re:run(Sentence, "^the module would have [0-9]+ bytes, over 65536 \\(too_large [0-9]+.*; the largest functions are f[0-9]+/1 of too_large [0-9]+, ",
                         [{capture, none}])),
    {Answer, 0} = checks:command(["check", checks:folder("commands/one_child.erl")]),
    checks:expect(["what takes the room of what fits: ", Answer], match,
                  re:run(Answer, "^ok\\n(?:note: .*\\n)*pulsefarm-erl: [0-9]+ of 65536 bytes: gen_server [0-9]+, supervisor [0-9]+, |"
                                 "^pulsefarm-erl: [0-9]+ of 65536 bytes: gen_server [0-9]+, supervisor [0-9]+, ", [multiline, {capture, none}])),
    ok.

%% The sources of dets under three clients: 20 places that are refused, and without these the size.
-spec dets_itself() -> ok.
dets_itself() ->
    Sources = [filename:join([code:lib_dir(stdlib), "src", Name ++ ".erl"])
               || Name <- ["dets", "dets_server", "dets_sup", "dets_utils", "dets_v9"]],
    Files = [checks:folder("commands/three_clients.erl") | Sources],
    {refused, Places} = checks:translate(Files),
    Of = fun(Name) -> length([Name || {_, _, Why} <- Places, string:find(Why, Name) =/= nomatch]) end,
    checks:expect("places of dets that are refused", {20, 15, 2, 1, 1, 1},
                  {length(Places), Of("file:"), Of("phash2"), Of("md5"), Of("init:get_argument"), Of("process_info")}),
    {refused, [{_, 1, Sentence}]} = checks:translate(Files, #{lax => true}),
    checks:expect(["the size of dets: ", Sentence], match,
                  re:run(Sentence, "^the module would have 40[0-9]{4} bytes, over 65536 \\(dets_v9 119[0-9]{3}, dets_utils 64[0-9]{3}, dets 6[0-9]{4}, ",
                         [{capture, none}])),
    ok.
