%% The tag of a call. LATE_ANSWERS is set where calls may time out: an answer that comes later has such a tag, and is
%% dropped.
-ifdef(LATE_ANSWERS).
-define(TAG(R), {'port@late', R}).
-else.
-define(TAG(R), R).
-endif.
