%% A folder's folders are searched too.
-module(account_holds).
-export([main/0]).

main() -> 0 = account:read(account:start()).
