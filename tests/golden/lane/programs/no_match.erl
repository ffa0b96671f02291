-module(m).
-export([main/0]).
main() -> {A, B} = pair(1), {B, A} = pair(2), A.
pair(N) -> {N, {N}}.
