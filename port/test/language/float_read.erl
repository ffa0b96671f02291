%% Floats of texts.
-module(float_read).
-export([main/0]).

main() ->
    {[list_to_float(T) || T <- ["1.0", "-0.5", "+2.25", "0.1", "1.0e10", "12.5E-3", "123456789.123456789", "9007199254740993.0", "0.3e-20", "0.0", "00.50"]],
     [tried(T) || T <- ["1", "1.", ".5", "1e5", "1.0e", "x", "", "1.5x", "1.0e400", "--1.0", a]]}.

tried(T) -> try list_to_float(T) catch error:R -> R end.
