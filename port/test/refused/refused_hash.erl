-module(refused_hash).
-export([main/0]).
main() -> erlang:phash2(a).
%% refused: 3: erlang:phash2/1 is a hash, and the profile has none; take the term itself as key
