-module(m).
-export([main/0]).
main() -> L = [1, {2}], {hd(L), tl(L), length(L), element(1, {f(L)}), tuple_size({L, L}), is_list(L), hd([])}.
f(L) -> L.
