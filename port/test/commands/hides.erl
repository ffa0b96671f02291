-module(hides).
-export([outside/0]).

outside() -> inside().
inside() -> inside.
