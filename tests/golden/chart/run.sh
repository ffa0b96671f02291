#!/bin/bash
# Draws the race of each module of examples/ by the seed that the table there names, and compares the chart with the
# report of that run: heads for each process, a row for each event, a star for each process that was passed over, an
# arrow for each signal and each spawn; and the same run in a compact chart, and a long run page by page. Where a
# browser is there, or can be installed from the system's packages, the chart is opened in it, and what is checked is
# what the browser made of it; else it is the file. A source whose atoms have all that markup has stays text.
#
# Usage: run.sh [BINARY]; the program is that of the crate `pulsefarm` where none is named.
set -u
top=$(cd "$(dirname "$0")/../../.." && pwd)
# shellcheck source=tests/compare.sh
. "$top/tests/compare.sh"

# A browser, where there is one.
find_browser() {
  command -v chromium || command -v chromium-browser || command -v google-chrome
}

browser=$(find_browser)
if [ -z "$browser" ]; then
  "$top/tests/debian.sh" chromium
  browser=$(find_browser)
fi
echo "browser: ${browser:-none}"

# What a browser makes of the chart $1.
opened() {
  if [ -z "$browser" ]; then
    cat "$1"
  else
    timeout 60 "$browser" --headless --no-sandbox --disable-gpu --dump-dom "file://$1" 2> /dev/null
  fi
}

# How often the pattern $1 occurs in what was opened.
times() { grep -oE "$1" "$room/opened" | wc -l; }

# Draws the module $1 by the words from $2 on into `chart.svg`, opens it, and leaves its report in `report`; `manner`
# has words of the chart alone.
manner=
draw() {
  source=$1
  shift
  timeout 60 "$program" run "$source" --root main --limit 2000 "$@" > "$room/report" 2> "$room/err" < /dev/null
  wanted=$?
  # The words in `$manner` have no blanks in them.
  # shellcheck disable=SC2086
  timeout 60 "$program" chart "$source" --limit 2000 $manner "$@" > "$room/chart.svg" 2> "$room/err" < /dev/null
  same "status of ${source##*/}" "$?" "$wanted"
  opened "$room/chart.svg" > "$room/opened"
}

# How many events of the report were a choice above 0 by which another went although the process that ran before could
# have gone on: its last turn was neither a wait, unless a message came since, nor its end.
stars() {
  awk '/^[0-9]+\/[0-9]+ </ {
    split($1, choice, "/")
    is_signal = index($2, "->") > 0
    if (choice[1] > 0 && is_ready && (is_signal || $2 != last)) count++
    if (!is_signal) {
      last = $2
      lives = $3 != "end"
      is_ready = lives && $3 != "wait"
      next
    }
    split($2, way, "->")
    if (!lives || way[2] != last) next
    if ($5 == "ends") lives = is_ready = 0
    else if ($5 == "message" || ($5 == "" && ($4 == "message" || $4 == "down"))) is_ready = 1
  }
  END { print count + 0 }' "$room/report"
}

# Compares the chart with the report, by counts; $1 names it.
matches() {
  events=$(grep -cE '^[0-9]+/[0-9]+ ' "$room/report")
  spawns=$(grep -cE '^[0-9]+/[0-9]+ <[0-9]+> spawn' "$room/report")
  delivered=$(grep -cE '^[0-9]+/[0-9]+ <[0-9]+>-><[0-9]+> ' "$room/report")
  dropped=$(grep -cE '^[0-9]+/[0-9]+ <[0-9]+>-><[0-9]+> deliver [a-z]+ dropped$' "$room/report")
  waiting=$(sed -n 's/^deadlock//p' "$room/report" | wc -w)
  same "documents of $1" "$(times '<svg ')" 1
  same "faults of $1" "$(times 'parsererror')" 0
  same "heads of $1" "$(times '<g class="process[ "]')" $((spawns + 1))
  same "heads above, between and below the rows of $1" "$(times '<text class="pid"')" \
    $(((spawns + 1) * ((events - 1) / 40 + 2)))
  starred=$(stars)
  same "stars of $1" "$(times '<text class="choice"[^>]*>\*[1-9][0-9]*/[0-9]+<')" "$starred"
  same "numbers in bold of $1" "$(times '<text class="number chosen"')" "$starred"
  same "processes in a deadlock of $1" "$(times '<g class="process deadlocked"')" "$waiting"
  same "ends by an error of $1" "$(times '<g class="event (end|ending) failed')" \
    "$(grep -E '^[0-9]+/[0-9]+ .* ends? ' "$room/report" | grep -cvE ' ends? normal$')"
  same "processes that failed of $1" "$(times '<g class="process failed"')" \
    "$(grep -E '^[0-9]+/[0-9]+ .* ends? ' "$room/report" | grep -cvE ' ends? normal$')"
  same "outcomes of $1" "$(times '<text class="outcome"')" 2
  same "events of $1" "$(times '<g class="event[ "]')" "$events"
  same "spawns of $1" "$(times '<g class="arrow spawn[ "]')" "$spawns"
  same "signals of $1 that arrive" $(($(times '<g class="arrow [a-z]+( dropped)?"') - spawns)) "$delivered"
  same "signals of $1 that are dropped" "$(times '<g class="arrow [a-z]+ dropped"')" "$dropped"
  same "text of $1" "$([ "$(times '<text')" -ge "$events" ] && echo yes)" yes
}

# Compares a compact chart with the report, by counts; $1 names it. A message that some exit or monitor made has no
# send.
matches_compact() {
  quiet=$(grep -cE '^[0-9]+/[0-9]+ (<[0-9]+> wait|<[0-9]+>-><[0-9]+> deliver message)$' "$room/report")
  received=$(grep -E '^[0-9]+/[0-9]+ <[0-9]+> receive ' "$room/report" | grep -cvE " receive \\{'(EXIT|DOWN)',")
  sent=$(grep -cE '^[0-9]+/[0-9]+ <[0-9]+> send ' "$room/report")
  dropped=$(grep -cE '^[0-9]+/[0-9]+ <[0-9]+>-><[0-9]+> deliver message dropped$' "$room/report")
  same "rows of $1" "$(times '<g class="event[ "]')" $(($(grep -cE '^[0-9]+/[0-9]+ ' "$room/report") - quiet))
  same "receives of $1" "$(times '<g class="arrow message[^>]* data-receive=')" "$received"
  same "messages of $1 without a receive" "$(times '<g class="arrow message lost')" $((sent - received - dropped))
}

while read -r module property seed; do
  draw "$top/examples/$module.erl" --seed "$seed" --property "$property"
  matches "$module"
  manner=--compact
  draw "$top/examples/$module.erl" --seed "$seed" --property "$property"
  matches_compact "$module in a compact chart"
  manner=
  draw "$top/examples/${module}_mended.erl" --seed "$seed" --property "$property"
  matches "${module}_mended"
done < <(races)

# An atom and a reason of markup.
cat > "$room/markup.erl" << 'SOURCE'
-module(markup).
-export([main/0]).
main() -> self() ! {'</text><script>alert(1)</script>', '&amp;<g class="event">', '\\'}, exit('<svg onload="x">').
SOURCE
draw "$room/markup.erl" --seed 0
matches markup
same 'scripts' "$(times '<script')" 0

# A run of 1,203 events is on three pages; the first is drawn where none is named, and the last where there are fewer.
cat > "$room/long.erl" << 'SOURCE'
-module(long).
-export([main/0]).
main() -> make(1202).
make(0) -> ok;
make(N) -> make_ref(), make(N - 1).
SOURCE
timeout 60 "$program" run "$room/long.erl" --root main --limit 100000 --seed 0 > "$room/report" 2> "$room/err"
same 'events of a long run' "$(grep -cE '^[0-9]+/[0-9]+ ' "$room/report")" 1203
for page in ' 500 1 500 1' '1 500 1 500 1' '2 500 501 1000 2' '3 203 1001 1203 3' '4 203 1001 1203 3'; do
  IFS=' ' read -r -a wanted <<< "$page"
  words=()
  if [ "${#wanted[@]}" = 5 ]; then
    words=(--page "${wanted[0]}")
    wanted=("${wanted[@]:1}")
  fi
  timeout 60 "$program" chart "$room/long.erl" --seed 0 "${words[@]}" > "$room/chart.svg" 2> "$room/err"
  same "status of page ${words[1]:-}" "$?" 0
  opened "$room/chart.svg" > "$room/opened"
  same "faults of page ${words[1]:-}" "$(times 'parsererror')" 0
  same "rows of page ${words[1]:-}" "$(times '<g class="event[ "]')" "${wanted[0]}"
  same "first row of page ${words[1]:-}" "$(times "<g class=\"event[^>]* data-event=\"${wanted[1]}\"")" 1
  same "last row of page ${words[1]:-}" "$(times "<g class=\"event[^>]* data-event=\"${wanted[2]}\"")" 1
  same "line of page ${words[1]:-}" "$(times ">Page ${wanted[3]} of 3: rows ${wanted[1]} to ${wanted[2]} of 1203<")" 1
done

# What is refused is reported in its words, and no document goes out.
printf '%s\n' B2 > "$room/wanted"
compare 'a root that is none' 2 "$room/markup.erl" "$room/wanted" chart --root other --limit 5 --seed 0
tell_counts
