#!/bin/sh
# Compiles the application by `erlc` alone into port/ebin. `port/pulsefarm-erl` runs it from there.
set -eu
cd "$(dirname "$0")"
mkdir -p ebin
erlc -Wall -Werror +debug_info -o ebin src/*.erl
modules=$(for file in src/*.erl; do basename "$file" .erl; done | paste -sd, -)
sed "s/{modules, \[\]}/{modules, [$modules]}/" src/pulsefarm_erl.app.src > ebin/pulsefarm_erl.app
