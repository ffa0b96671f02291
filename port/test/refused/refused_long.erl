-module(refused_long).
-export([main/0]).
-define(TEN, "0123456789").
-define(HUNDRED, ?TEN ?TEN ?TEN ?TEN ?TEN ?TEN ?TEN ?TEN ?TEN ?TEN).
-define(THOUSAND, ?HUNDRED ?HUNDRED ?HUNDRED ?HUNDRED ?HUNDRED ?HUNDRED ?HUNDRED ?HUNDRED ?HUNDRED ?HUNDRED).
main() -> length(?THOUSAND ?THOUSAND ?THOUSAND ?THOUSAND ?THOUSAND).
%% refused: 6: a list of 5000 elements has over 4,096 nodes, the most that a value may have; take less of it
