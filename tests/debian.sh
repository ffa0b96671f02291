#!/bin/sh
# Sees to it that Debian's packages $@ are here: where that may be, those that aren't are installed. The status is 0
# where all are there.
#
# Usage: debian.sh PACKAGE..
set -u
lacking() {
  for package; do
    [ "$(dpkg-query -W -f '${db:Status-Status}' "$package" 2> /dev/null)" = installed ] || echo "$package"
  done
}
# (one at a time, as the lists of packages have one lock)
exec 9< "$0"
flock 9
wanted=$(lacking "$@")
[ -n "$wanted" ] || exit 0
if [ "$(id -u)" = 0 ] && command -v apt-get > /dev/null; then
  # The names are words.
  # shellcheck disable=SC2086
  timeout 300 sh -c 'apt-get update && apt-get install -y --no-install-recommends "$@"' sh $wanted > /dev/null 2>&1
fi
wanted=$(lacking "$@")
[ -z "$wanted" ] || echo "these packages of Debian are lacking: $wanted" | tr '\n' ' ' >&2
[ -z "$wanted" ]
