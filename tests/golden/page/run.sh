#!/bin/sh
# Opens pages of runs in a browser, and steps, filters, hides and searches there, by keys, by mouse and as a screen
# reader sees them. The pages have the head and the tail of the crate pf_page, and data of the form that it writes.
# Chromium is installed from the system's packages where there is none.
set -u
top=$(cd "$(dirname "$0")/../../.." && pwd)
command -v chromium > /dev/null || "$top/tests/debian.sh" chromium
browser=$(command -v chromium) || { echo "there is no browser"; echo "0 passed, 1 failed"; exit 1; }
room=$(mktemp -d) || exit 2
trap 'rm -rf "$room"' EXIT
cd "$(dirname "$0")" && timeout 300 python3 -B page_test.py "$browser" "$room"
