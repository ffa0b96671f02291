%% Cases of Common Test that hunt: one whose program has a race, and the same fixed.
-module(bank_SUITE).
-export([all/0, race/1, fixed/1, loaded/1]).

all() -> [race, fixed, loaded].

race(_) -> pulsefarm_erl:hunt({example("bank.erl"), main}, [], ["--seeds", "0..200"]).

fixed(_) -> pulsefarm_erl:hunt({example("bank.erl"), main}, [], ["-D", "FIXED", "--seeds", "0..60"]).

%% A module that is loaded serves as its source.
loaded(_) ->
    {ok, leader, Binary} = compile:file(example("leader.erl"), [binary, {d, 'FIXED'}]),
    {module, leader} = code:load_binary(leader, example("leader.erl"), Binary),
    pulsefarm_erl:hunt({leader, main}, [], ["--seeds", "0..60"]).

example(Name) ->
    Folder = filename:dirname(proplists:get_value(source, module_info(compile))),
    filename:join([Folder, "..", "..", "examples", Name]).
