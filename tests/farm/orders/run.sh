#!/bin/sh
# Runs `steps` on orders and shrinkings of one module: their properties and choices, what they are refused for, and what
# is no command.
#
# Usage: run.sh [BINARY]; the program is that of the crate `pulsefarm` where none is named.
set -u
orders=$(cd "$(dirname "$0")" && pwd)
top=$orders/../../..
# shellcheck source=tests/compare.sh
. "$top/tests/compare.sh"

# Submits the module, gives the commands $1 after it, and compares with the status $2 and the replies $3.
answered() {
  printf 'submit 1 52\n-module(m).\n-export([main/0]).\nmain() -> 1 + 2 * 3.\n\n%b' "$1" > "$room/in"
  printf 'p1 module 1\n%b' "$3" > "$room/wanted"
  compare "$1" "$2" "$room/in" "$room/wanted" steps
}

# An order of `main` with the property and the choices $1 is taken.
ticketed() { answered "order 1 1 main $1 100\n" 0 'p1 ticket 1\n'; }

# An order with the words $1 after its project is refused with $2.
refused() { answered "order 1 $1\n" 0 "p1 refused $2\n"; }

# The command $1 is none.
no_command() { answered "$1\n" 2 'command 2 refused C1\n'; }

# The report of an order with the property and the choices $1 says that the property $2.
verdict() {
  answered "order 1 1 main $1 100\nclaim 0 1 1\nslice 0 1 1 1\nfile 0 1 1\nfetch 1 1\n" 0 \
    "p1 ticket 1\nw0 done\nw0 done\nw0 done\np1 report 4\n0/1 <0> end normal\nfinished 7\nsteps 4\nproperty $2\n"
}

ticketed 'returns seed:7'
ticketed 'true seed:0'
ticketed 'nocrash seed:18446744073709551615'
ticketed 'nodeadlock none'
ticketed 'withinlimit 4294967295,0'
ticketed 'never:{error,_} seed:1'
ticketed 'never:_ 7'

for choices in seed:18446744073709551616 seed: seed:01 seed:1:2 seed:x seed:-1 seed:1,2 seed Seed:1 4294967296 '1,'; do
  no_command "order 1 1 main returns $choices 100"
done

refused '2 other nothing none 0' B1
refused '1 other nothing none 0' B2
refused '1 main nothing none 0' P1
refused '1 main never: seed:7 100' P1
refused '1 main never:} seed:7 100' P1
refused '1 main Returns none 100' P1
refused '1 main returns none 0' B6
refused '1 main never:_ seed:7 100001' B6

verdict 'returns seed:7' holds
verdict 'true seed:7' fails
verdict 'nocrash none' holds
verdict 'never:_ 1,2' holds

for words in 'seed:1 3 100' '0,1 3' '0,1 3 100 1' '0,1 4294967296 100' '0,1 03 100' '0,1 3 x' '0,,1 3 100'; do
  no_command "shrink 1 1 main returns $words"
done

# A worker's line has its numbers and no more, and a slice has a turn at least.
for line in 'once 1 1' 'claim 0 1' 'claim 0 1 1 1' 'slice 0 1 1' 'slice 0 1 1 0' 'slice 0 1 1 01' 'park 0 1' \
  'take 0 1 4294967296' 'steal 0 1 1' \
  'steal 0 1 1 1 1' 'file 0 1 x' 'back -1 1 1' 'Claim 0 1 1' 'claim  0 1 1' 'park 0 1 1 '; do
  no_command "$line"
done
answered 'claim 4294967295 1 1\nslice 0 1 1 4294967295\nsteal 0 4294967295 1 1\n' 0 \
  'w4294967295 not now N2\nw0 not now N2\nw0 not now N2\n'

# A shrinking has from 1 to 1,000 runs.
answered 'shrink 1 1 main returns none 0 100\n' 0 'p1 refused B6\n'
answered 'shrink 1 1 main returns none 1 100\n' 0 'p1 ticket 1\n'
answered 'shrink 1 1 main returns none 1000 100\n' 0 'p1 ticket 1\n'
answered 'shrink 1 1 main returns none 1001 100\n' 0 'p1 refused B6\n'
tell_counts
