%% What unit tests lean on. They are plain functions, so that EUnit runs them, and check_units does without it.
-compile([export_all, nowarn_export_all]).
-define(assertEqual(Wanted, Seen), ok = units:same(Wanted, Seen)).
-define(assertNotEqual(Other, Seen), ok = units:same(false, (Other) =:= (Seen))).
-define(assert(Seen), ok = units:same(true, Seen)).
-define(assertNot(Seen), ok = units:same(false, Seen)).
-define(assertMatch(Pattern, Seen), case Seen of Pattern -> ok end).
-define(_assertEqual(Wanted, Seen), {?LINE, fun() -> ?assertEqual(Wanted, Seen) end}).
-define(_assertMatch(Pattern, Seen), {?LINE, fun() -> ?assertMatch(Pattern, Seen) end}).
