#!/bin/sh
# Whether Erlang is here as the tests of port/ want it: Debian's erlang-base, erlang-syntax-tools, erlang-src,
# erlang-eunit and erlang-dev, which has the header of eunit. They are
# installed where that may be. The status is 0 where all is there.
set -u
there() {
  command -v erl > /dev/null && command -v erlc > /dev/null && ls /usr/lib/erlang/lib/stdlib-*/src/lists.erl /usr/lib/erlang/lib/syntax_tools-*/ebin > /dev/null 2>&1 &&
    ls /usr/lib/erlang/lib/eunit-*/include/eunit.hrl > /dev/null 2>&1
}
there && exit 0
"$(dirname "$0")/../debian.sh" erlang-base erlang-syntax-tools erlang-src erlang-dev erlang-eunit
there
