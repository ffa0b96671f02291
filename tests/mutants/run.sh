#!/usr/bin/env bash
# Tests tests/mutants/mutants.sh over three small crates, of which nothing is proved: an `rt` that stands in for the
# prover refuses each mutant but those that `$stand_in/passing` names, and those that `$stand_in/by_form` names only by
# the form of a proof.
set -u
export LC_ALL=C
here=$(cd "$(dirname "$0")" && pwd)
# shellcheck source=tests/checks.sh
. "$here/../checks.sh"
# What was seen refused is noted beside the kit.
store=$room/rattle-kept-pulsefarm
mkdir -p "$room/kit/bin" "$room/farm"
cd "$room/farm" || exit 2
export stand_in="$room" PATH="$room/kit/bin:$PATH" TURNS=0 LANES=1 XDG_STATE_HOME="$room/state"
unset MOST_EDITS MOST_CHANGED

cat > "$room/kit/bin/rt" << 'END'
#!/bin/sh
case $1 in
version) cat "$stand_in/version" ;;
must-fail)
  for edit in crates/"$2"/must-fail/*.edit; do
    name=$2/$(basename "$edit")
    says="refused, as it must be: src/lib.rt:1:1: error"
    if grep -qx "$name" "$stand_in/passing"; then says="NOT REFUSED: it is still proved"; fi
    if grep -qx "$name" "$stand_in/by_form"; then
      says="refused, as it must be (only because a proof file names what the edit took away)"
    fi
    echo "rt: must-fail $name: $says"
  done
  ;;
esac
END
chmod +x "$room/kit/bin/rt"

# Makes the crates: `top` needs `mid`, and both need `low`.
make_low() {
  mkdir -p crates/low/src crates/low/specs crates/low/mutants
  cat > crates/low/specs/Numbers.antt << 'END'
-- Numbers.
use Rattle.std.specs.Prelude.{ℕ}

-- the first number
abbrev pub first : ℕ → ℕ
first n = n + base

-- what the first number adds
abbrev pub base : ℕ
base = 1

abbrev pub lonely : ℕ
lonely = 7

abbrev pub shown : ℕ → ℕ
shown n = n
END
  cat > crates/low/src/lib.rt << 'END'
//! Numbers.

ghost use Rattle.low.specs.Numbers.{first};

/// The most.
pub const MOST: u32 = 10;

/// A count.
#[derive(Drop)]
pub struct Count {
    number: u32,
}

impl Model for Count {
    ghost view = { λ c. c.number };
}

impl Count {
    /// Adds one.
    pub fn add(&mut self)
        ensures { self.new ≡ self.old + 1 }
    {
        self.number += 1;
    }
}

/// A step.
pub fn step(n: u32) -> u32
    requires { 0 < n }
    ensures { result ≡ first n }
{
    n + 1
}

/// Nothing.
pub fn nothing(n: u32) -> u32
    ensures { result ≡ n }
{
    n
}
END
  printf 'file: src/lib.rt\nold: n + 1\nnew: n + 2\n' > crates/low/mutants/step_of_two.edit
}

make_mid() {
  mkdir -p crates/mid/src crates/mid/specs crates/mid/mutants
  cat > crates/mid/specs/Twice.antt << 'END'
use Rattle.low.specs.Numbers.{first}
abbrev pub twice : ℕ → ℕ
twice n = first (first n)
END
  cat > crates/mid/src/lib.rt << 'END'
//! Steps.
ghost use Rattle.mid.specs.Twice.{twice};
use low::{Count, MOST, nothing, step};

pub struct Held {
    number: u32,
}

impl Model for Held {
    ghost use Rattle.low.specs.Numbers.{shown};

    ghost view = { λ h. shown h.number };
}

/// Two steps.
pub fn two(n: u32) -> u32
    requires { 0 < n }
    ensures { result ≡ twice n }
{
    // the first and the second
    step(step(n))
}

/// As many as are given.
pub fn many(count: &mut Count) {
    count.add();
}

/// The most.
pub fn most() -> u32 {
    MOST
}

/// The same.
pub fn same(n: u32) -> u32
    ensures { result ≡ n }
{
    n + 0
}
END
  printf 'file: src/lib.rt\nold: step(step(n))\nnew: step(n)\n' > crates/mid/mutants/two_is_one.edit
  printf 'file: src/lib.rt\nold: count.add();\nnew: count.add(); count.add();\n' > crates/mid/mutants/many_twice.edit
  printf 'file: src/lib.rt\nold:     MOST\nnew:     MOST - 1\n' > crates/mid/mutants/most_is_less.edit
  printf 'file: src/lib.rt\nold: n + 0\nnew: nothing(n) + 1\n' > crates/mid/mutants/same_is_more.edit
}

make_top() {
  mkdir -p crates/top/src crates/top/mutants
  cat > crates/top/src/lib.rt << 'END'
ghost use Rattle.mid.specs.Twice.{twice};
use mid::{same, two};

pub fn four(n: u32) -> u32
    requires { 0 < n }
    ensures { result ≡ twice (twice n) }
{
    two(two(n))
}

pub fn itself(n: u32) -> u32
    ensures { result ≡ n }
{
    same(n)
}
END
  printf 'file: src/lib.rt\nold: two(two(n))\nnew: two(n)\nold: two(n)\nnew: n\n' > crates/top/mutants/four_is_none.edit
  printf 'file: src/lib.rt\nold: same(n)\nnew: 0\n' > crates/top/mutants/itself_is_none.edit
}

# Makes all again, as seen refused.
start_anew() {
  cd "$room/farm" || exit 2
  rm -rf crates "$store" "$room/state"
  make_low
  make_mid
  make_top
  printf '# The crates.\nlow:\nmid: low\ntop tests_may=Threads: mid\n' > crates.txt
  echo "a-kit logic one" > "$room/version"
  : > "$room/passing"
  : > "$room/by_form"
  if [ -e "$room/seen" ]; then
    mkdir "$store"
    cp "$room/seen" "$store/refused"
  fi
}

due() {
  tests/mutants/mutants.sh due | sed '$d'
}

# Has what begins with $1 in the notes seen at the second $2.
seen_at() {
  sed -i "s|^\($1.*\) [0-9]*\$|\1 $2|" "$store/refused"
}

# After the change $2 of the file $3, made by sed, what is due has to be $4; $1 names it.
case_of() {
  start_anew
  cp "$3" "$room/before"
  sed -i "$2" "$3"
  if cmp -s "$3" "$room/before"; then same "$1 (changes nothing)" 0 1; fi
  same "$1" "$(due)" "$4"
}

mkdir -p tests/mutants
cp "$here"/mutants.sh "$here"/*.py tests/mutants/
git init -q .

below='names below changed:'
low=crates/low/src/lib.rt
numbers=crates/low/specs/Numbers.antt
start_anew
same "new crates" "$(due)" "$(printf 'low 1 of 1, new\nmid 4 of 4, new\ntop 2 of 2, new')"
tests/mutants/mutants.sh > "$room/out" && status=0 || status=$?
same "all refused" "$status $(tail -n 1 "$room/out")" "0 3 crates passed, 0 failed"
same "how many are noted" "$(cut -d/ -f1 "$store/refused" | uniq -c | xargs)" "1 low 4 mid 2 top"
cp "$store/refused" "$room/seen"

# What means nothing makes nothing due.
case_of "a comment below" 's/^-- the first.*/-- another/' "$numbers" ""
case_of "a comment behind a definition below" 's/^base = 1/base = 1 -- one/' "$numbers" ""
case_of "a doc comment below" 's|/// A step.|/// A step, or none.|' "$low" ""
case_of "a comment in the own crate" 's|// the first and.*|// other|' crates/mid/src/lib.rt ""
case_of "a doc comment in the own crate" 's|/// Two steps.|/// Two.|' crates/mid/src/lib.rt ""
case_of "a comment in an edit" '1i why it is wrong' crates/mid/mutants/two_is_one.edit ""
case_of "layout in the own crate" 's/^    step(/\n      step(/' crates/mid/src/lib.rt ""
case_of "a crate more in a line" 's/^mid: low/mid: low rand_core/' crates.txt ""

# What is below makes those due that reach it.
case_of "a requires below" 's/requires { 0 < n }/requires { 1 < n }/' "$low" \
  "$(printf 'low 1 of 1, changed\nmid 1 of 4, %s two_is_one' "$below")"
case_of "a body below" 's/    n + 1/    1 + n/; s/old: n + 1/old: 1 + n/' "$low" "low 1 of 1, changed"
case_of "an ensures of a method below" 's/self.old + 1 }/self.old + 2 }/' "$low" \
  "$(printf 'low 1 of 1, changed\nmid 1 of 4, %s many_twice' "$below")"
case_of "a Model below" 's/λ c. c.number/λ c. 0/' "$low" \
  "$(printf 'low 1 of 1, changed\nmid 1 of 4, %s many_twice' "$below")"
case_of "what a Model in the file names" 's/^shown n = n/shown n = n + 1/' "$numbers" \
  "$(printf 'low 1 of 1, changed\nmid 4 of 4, %s many_twice most_is_less same_is_more two_is_one' "$below")"
case_of "a constant below" 's/MOST: u32 = 10/MOST: u32 = 11/' "$low" \
  "$(printf 'low 1 of 1, changed\nmid 1 of 4, %s most_is_less' "$below")"
case_of "a contract that a new text names" 's/ensures { result ≡ n }/ensures { n ≡ result }/' "$low" \
  "$(printf 'low 1 of 1, changed\nmid 1 of 4, %s same_is_more' "$below")"
case_of "a definition two crates below" 's/^base = 1/base = 2/' "$numbers" \
  "$(printf 'low 1 of 1, changed\nmid 1 of 4, %s two_is_one\ntop 1 of 2, %s four_is_none' "$below" "$below")"
case_of "a definition that isn't reached" 's/^lonely = 7/lonely = 8/' "$numbers" "low 1 of 1, changed"

# What is the own makes all due.
case_of "a body of the own" 's/^    same(n)/    same(same(n))/' crates/top/src/lib.rt "top 2 of 2, changed"
case_of "an edit of the own" 's/^new: 0/new: 1/' crates/top/mutants/itself_is_none.edit "top 2 of 2, changed"
case_of "a flag" 's/tests_may=Threads/tests_may=Net/' crates.txt "top 2 of 2, changed"
start_anew
echo "another-kit logic one" > "$room/version"
same "another kit of the same logic" "$(due)" ""
echo "another-kit logic two" > "$room/version"
same "another kit" "$(due)" "$(printf 'low 1 of 1, changed\nmid 4 of 4, changed\ntop 2 of 2, changed')"

# An edit of a contract has all that its crate reaches. The two crates that were seen the longest ago are due in turn.
start_anew
printf 'file: src/lib.rt\nold: fn same(n: u32)\nnew: fn same(m: u32)\n' > crates/mid/mutants/a_contract.edit
tests/mutants/mutants.sh mid > /dev/null
sed -i 's/MOST: u32 = 10/MOST: u32 = 11/' "$low"
same "an edit of a contract" "$(due | grep mid)" "mid 2 of 5, $below a_contract most_is_less"
start_anew
seen_at top/ 5
seen_at low/ 6
same "in turn" "$(TURNS=1 due)" "top 2 of 2, in turn"
same "two in turn" "$(TURNS=2 MOST_EDITS=3 due)" "$(printf 'low 1 of 1, in turn\ntop 2 of 2, in turn')"
same "no room for the second in turn" "$(TURNS=2 MOST_EDITS=2 due)" "top 2 of 2, in turn"
same "the first in turn has room" "$(TURNS=2 MOST_EDITS=1 due)" "top 2 of 2, in turn"
sed -i 's/^lonely = 7/lonely = 8/' "$numbers"
same "room beside others" "$(TURNS=2 MOST_EDITS=3 due)" "$(printf 'low 1 of 1, changed\ntop 2 of 2, in turn')"
same "no room beside others" "$(TURNS=2 MOST_EDITS=2 due)" "low 1 of 1, changed"

# Those that wait: the oldest first, and a crate keeps its line until all were tried.
start_anew
sed -i 's/^base = 1/base = 2/' "$numbers"
tests/mutants/mutants.sh low > /dev/null
seen_at mid/two_is_one 20
seen_at top/four_is_none 10
same "the oldest first" "$(MOST_EDITS=1 tests/mutants/mutants.sh due)" \
  "$(printf 'mid 1 of 4, wait for a later gate: %s two_is_one\ntop 1 of 2, %s four_is_none\n%s' "$below" "$below" \
    "1 mutants are due, and 1 wait for a later gate")"
before=$(grep '^mid/' "$store/refused")
MOST_EDITS=1 tests/mutants/mutants.sh > /dev/null
same "nothing is noted of one that waits" "$(grep '^mid/' "$store/refused")" "$before"
same "it waits still" "$(due)" "mid 1 of 4, $below two_is_one"
MOST_EDITS=1 tests/mutants/mutants.sh > /dev/null
same "none waits" "$(tests/mutants/mutants.sh due)" "0 mutants are due, and 0 wait for a later gate"
sed -i 's/^base = 2/base = 1/' "$numbers"
same "what is as it was before is known" "$(due)" ""
for number in $(seq 2 10); do
  sed -i "s/^base = .*/base = $number/" "$numbers"
  tests/mutants/mutants.sh low > /dev/null
done
same "how many states are kept" "$(grep -c '^low/step_of_two.edit ' "$store/refused")" 8
same "the newest state is kept" "$(due | grep -c '^low ')" 0
start_anew
for number in $(seq 19); do
  printf 'file: src/lib.rt\nold: same(n)\nnew: %s\n' "$number" > "crates/top/mutants/number_$number.edit"
done
tests/mutants/mutants.sh top > /dev/null
sed -i '/fn same/,/^{/s/result ≡ n/n ≡ result/' crates/mid/src/lib.rt
tests/mutants/mutants.sh mid > /dev/null
same "at most sixteen" "$(tests/mutants/mutants.sh due | tail -n 1)" "16 mutants are due, and 4 wait for a later gate"
tests/mutants/mutants.sh > /dev/null
same "the rest" "$(tests/mutants/mutants.sh due | tail -n 1)" "4 mutants are due, and 0 wait for a later gate"

# Changed crates go whole, those first that were seen the longest ago; one that a gate has no time for waits.
start_anew
seen_at top/ 5
seen_at mid/ 6
seen_at low/ 7
echo "another-kit logic two" > "$room/version"
later="wait for a later gate: changed, beside more than a gate can try"
same "more than a gate can try" "$(MOST_CHANGED=5 tests/mutants/mutants.sh due)" \
  "$(printf 'low 1 of 1, changed\nmid 4 of 4, %s\ntop 2 of 2, changed\n%s' "$later" \
    "3 mutants are due, and 4 wait for a later gate")"
before=$(grep '^mid/' "$store/refused")
MOST_CHANGED=5 tests/mutants/mutants.sh > /dev/null
same "nothing is noted of a crate that waits" "$(grep '^mid/' "$store/refused")" "$before"
same "a crate that waited is due" "$(due)" "mid 4 of 4, changed"
MOST_CHANGED=1 tests/mutants/mutants.sh > /dev/null
same "the first goes, however many it has" "$(due)" ""

# What was seen is kept for all checkouts on the machine, beside the kit or else among what the user's programs keep.
start_anew
cp -a "$room/farm" "$room/other"
same "another checkout" "$(cd "$room/other" && due)" ""
rm "$store/refused"
tests/mutants/mutants.sh low > /dev/null &
(cd "$room/other" && tests/mutants/mutants.sh mid > /dev/null) &
wait
tests/mutants/mutants.sh top > /dev/null
same "two runs at once" "$(due) $(wc -l < "$store/refused")" " 7"
start_anew
rm -r "$store"
: > "$store"
all_new=$(printf 'low 1 of 1, new\nmid 4 of 4, new\ntop 2 of 2, new')
same "nothing beside the kit" "$(due)" "$all_new"
tests/mutants/mutants.sh > /dev/null
same "noted elsewhere" "$(due) $(wc -l < "$room/state/pulsefarm/refused")" " 7"
rm -r "$room/state"
: > "$room/state"
tests/mutants/mutants.sh > "$room/out" && status=0 || status=$?
same "noted nowhere" "$status $(grep -c '^there is no folder' "$room/out")" "0 1"
same "all stay due" "$(due)" "$all_new"

# In a clone for the gate.
start_anew
sed -i 's/requires { 0 < n }/requires { 1 < n }/' "$low"
tests/mutants/mutants.sh lay "$room/clone" > /dev/null
same "what is laid" "$(cd "$room/clone/crates" && echo */must-fail/*)" \
  "low/must-fail/step_of_two.edit mid/must-fail/two_is_one.edit"
(cd "$room/clone" && rt must-fail low && rt must-fail mid) > "$room/log"
tests/mutants/mutants.sh read "$room/log" "$room/clone" > "$room/out" && status=0 || status=$?
same "what was laid is noted" "$status $(due)" "0 "
start_anew
sed -i 's/^base = 1/base = 2/' "$numbers"
tests/mutants/mutants.sh read "$room/log" "$room/clone" > "$room/out" && status=0 || status=$?
same "as it was laid" "$status $(due)" \
  "$(printf '0 low 1 of 1, changed\nmid 1 of 4, %s two_is_one\ntop 1 of 2, %s four_is_none' "$below" "$below")"
start_anew
sed -i 's/requires { 0 < n }/requires { 1 < n }/' "$low"
tests/mutants/mutants.sh read "$room/log" > "$room/out" && status=0 || status=$?
same "what is due now is noted" "$status $(due)" "0 "
start_anew
sed -i 's/requires { 0 < n }/requires { 1 < n }/' "$low"
echo mid/two_is_one.edit > "$room/passing"
tests/mutants/mutants.sh > "$room/out" && status=0 || status=$?
same "one is not refused" "$status $(tail -n 1 "$room/out")" "1 1 crates passed, 1 failed"
same "it is told" "$(grep -c 'mid/two_is_one.edit: NOT REFUSED' "$room/out")" 1
same "its crate loses its lines" "$(due)" "mid 4 of 4, new"

# A new mutant has to fail at a goal of a source; an old one that doesn't stays due until it is changed.
start_anew
sed -i 's/requires { 0 < n }/requires { 1 < n }/' "$low"
echo mid/two_is_one.edit > "$room/by_form"
tests/mutants/mutants.sh > "$room/out" && status=0 || status=$?
same "an old one is refused by form alone" "$status $(tail -n 1 "$room/out")" "0 2 crates passed, 0 failed"
same "it is reported" "$(grep -c 'no goal of a source failed: .*mid/two_is_one.edit' "$room/out")" 1
same "it stays due" "$(due)" "mid 1 of 4, $below two_is_one"
start_anew
printf 'file: src/lib.rt\nold: fn same(n: u32)\nnew: fn same(m: u32)\n' > crates/mid/mutants/a_contract.edit
echo mid/a_contract.edit > "$room/by_form"
tests/mutants/mutants.sh mid > "$room/out" && status=0 || status=$?
same "a new one is refused by form alone" "$status $(tail -n 1 "$room/out")" "1 0 crates passed, 1 failed"

# Each edit must apply.
start_anew
tests/mutants/mutants.sh apply > "$room/out" && status=0 || status=$?
same "all apply" "$status $(cat "$room/out")" "0 0 mutants can't be applied"
apply_fails() {
  tests/mutants/mutants.sh apply > "$room/out" && status=0 || status=$?
  same "$1" "$status $(head -n 1 "$room/out")" "1 $2"
}
sed -i 's/^    step(step(n))/    step(step(step(n)))/' crates/mid/src/lib.rt
echo "// same(n)" >> crates/top/src/lib.rt
apply_fails "a text twice" \
  "top/itself_is_none.edit: BAD EDIT: an old text stands in src/lib.rt 2 times, and not once: same(n)"
start_anew
sed -i 's/^    step(step(n))/    step( step(n))/' crates/mid/src/lib.rt
apply_fails "a text that is gone" \
  "mid/two_is_one.edit: BAD EDIT: an old text stands in src/lib.rt 0 times, and not once: step(step(n))"
start_anew
sed -i 's/lib.rt/two.rt/' crates/mid/mutants/two_is_one.edit
apply_fails "a file that is gone" "mid/two_is_one.edit: BAD EDIT: there is no file src/two.rt"
start_anew
sed -i 's/^new: n$/new: two(two(n))/' crates/top/mutants/four_is_none.edit
apply_fails "an edit that changes nothing" "top/four_is_none.edit: BAD EDIT: it changes nothing"

tell_counts
