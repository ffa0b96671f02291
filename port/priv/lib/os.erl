%% What a source asks of the system that a run can answer: the time, by its clock, and the environment, which is empty.
-module(os).
-compile([export_all, nowarn_export_all]).
-spec timestamp() -> term().
timestamp() -> erlang:timestamp().

-spec system_time() -> integer().
system_time() -> erlang:system_time().

-spec system_time(term()) -> integer().
system_time(U) -> erlang:system_time(U).

-spec perf_counter() -> integer().
perf_counter() -> erlang:monotonic_time().

-spec getenv(term()) -> false.
getenv(_) -> false.

-spec getenv(term(), term()) -> term().
getenv(_, Default) -> Default.

-spec type() -> {unix, linux}.
type() -> {unix, linux}.
