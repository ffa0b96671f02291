%% @doc What unit tests lean on.
-module(units).
-export([same/2]).

%% @doc An error where both aren't the same.
-spec same(term(), term()) -> ok.
same(Same, Same) -> ok;
same(Wanted, Seen) -> error({wanted, Wanted, seen, Seen}).
