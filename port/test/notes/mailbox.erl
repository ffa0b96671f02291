%% A receive whose clause the profile doesn't decide, with no clause that takes what it should leave.
-module(mailbox).
-export([main/0]).

main() ->
    self() ! #{n => 1},
    receive #{n := 1} -> one end.
%% note: 7: a message that this receive should leave in the mailbox ends the process with {refused,'receive',7}; test it after the receive, or receive such messages by a clause of their own
