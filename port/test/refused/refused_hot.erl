-module(refused_hot).
-export([main/0]).
main() -> code:purge(x).
%% refused: 3: code:purge/1 loads or makes code at run time, which the profile can't; call the function by its module
