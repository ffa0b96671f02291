-module(elements).
-export([f/0]).
f() -> 1.
