-module(refused_big).
-export([main/0]).
main() -> 123456789012345678901234567890.
%% refused: 3: the integer 123456789012345678901234567890 has more than 64 bits; count in a larger unit
