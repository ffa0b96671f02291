%% What is known of applications where nothing is known of any; the command eunit puts a module of this name in its place.
-module(pf_application).
-compile([export_all, nowarn_export_all]).
-spec own() -> term().
own() -> none.

-spec env(term()) -> list().
env(_) -> [].

-spec mod(term()) -> term().
mod(_) -> none.

-spec needs(term()) -> list().
needs(_) -> [].
