%% @doc Explorations by pulsefarm-erl: no schedule fails, one does, or not all were seen; in virtual time the clock goes last.
-module(check_explore).
-export([check/0]).

-spec check() -> ok.
check() ->
    none_fails(),
    one_fails(),
    not_all_seen(),
    virtual_time(),
    by_deviations(),
    refused(),
    ok.

-spec explored([string()]) -> {string(), 0..255}.
explored(Words) -> checks:command(["explore" | Words]).

-spec file(string()) -> file:filename().
file(Name) -> checks:folder("commands/" ++ Name ++ ".erl").

%% Both properties of the farm hold by each schedule, so `sound' does.
-spec none_fails() -> boolean().
none_fails() ->
    {Answer, Status} = explored([file("adds_up")]),
    checks:expect("no schedule fails: status", 0, Status),
    checks:has("no schedule fails", "^no schedule fails: [0-9]+ runs; a run has at most [0-9]+ steps$", Answer),
    {Json, 0} = explored([file("adds_up"), "--format", "json"]),
    checks:has("the same in JSON", "^\\{\"failure\":false,\"runs\":[0-9]+,\"steps\":[0-9]+\\}$", Json).

%% The schedule that is found runs so again.
-spec one_fails() -> boolean().
one_fails() ->
    Words = [file("adds_up"), "-D", "FIRST", "--property", "true"],
    {Answer, Status} = explored(Words),
    checks:expect("one fails: status", 1, Status),
    checks:has("its verdict", "^property fails$", Answer),
    Found = checks:room("explored"),
    ok = file:write_file(Found, Answer),
    {Again, 1} = checks:command(["run" | Words] ++ ["--schedule", "@" ++ Found]),
    checks:has("it fails again", "^property fails$", Again).

-spec not_all_seen() -> boolean().
not_all_seen() ->
    {Answer, Status} = explored([file("adds_up"), "--budget", "20"]),
    checks:expect("not all seen: status", 3, Status),
    checks:has("not all seen", "^not all seen: 20 runs \\(budget\\); no schedule with at most [0-9]+ deviations fails$", Answer),
    {Json, 3} = explored([file("adds_up"), "--deviations", "1", "--format", "json"]),
    checks:has("the same in JSON", "^\\{\"unseen\":true,\"runs\":[0-9]+,\"deviations\":1\\}$", Json).

%% A time passes only where nobody else can go; early, at any moment.
-spec virtual_time() -> boolean().
virtual_time() ->
    {All, 0} = explored([file("waits_alone")]),
    checks:has("in virtual time no schedule fails", "^no schedule fails: ", All),
    {Answer, Status} = explored([file("times_out"), "--deviations", "2"]),
    checks:expect("in virtual time: status", 3, Status),
    checks:has("in virtual time none fails", "^not all seen: [0-9]+ runs; no schedule with at most 2 deviations fails$", Answer),
    {Early, 1} = explored([file("times_out"), "--deviations", "2", "--patience", "early"]),
    checks:has("early one does", "^crash <0> at times_out\\.erl:8 ", Early).

%% The fixed examples hold by each schedule that deviates at most once.
-spec by_deviations() -> ok.
by_deviations() ->
    [begin
        {Answer, Status} = explored([checks:folder("../examples/" ++ Name ++ ".erl"), "-D", "FIXED", "--deviations", "1"]),
        checks:expect(["status of ", Name], 3, Status),
        checks:has(Name, "^not all seen: [0-9]+ runs; no schedule with at most 1 deviations fails$", Answer)
    end || Name <- ["bank", "cache", "leader", "ticket", "workers"]],
    ok.

-spec refused() -> boolean().
refused() ->
    {Words, 2} = explored([file("adds_up"), "--seeds", "0..10"]),
    checks:has("no seeds", "explore has no word --seeds", Words).
