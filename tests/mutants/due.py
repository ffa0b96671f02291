"""Says which mutants are due, whether each can be applied, and notes what was refused; mutants.sh says how.

    due.py TOP apply              prints the edits that can't be applied
    due.py TOP plan PLAN [NAME..] prints what is due and why, or these crates, and writes a line for each of their edits
                                  to PLAN: its crate and name, the crate's sum, the edit's sum, and why it is tried, or
                                  `seen`, `waits` or `later`
    due.py TOP note PLAN LOG..    notes by such a plan what the logs of `rt` say

KIT is the kit's name, TURNS (2) how many crates are due in turn, and MOST_EDITS (16) how many edits are due at once of
crates that are as they were. All edits of crates that changed themselves count among these; then come those that reach
names that changed below them; and then crates in turn, each whole, until one has no room: the first has where nothing
else is due. MOST_CHANGED (4 a processor) is how many edits of changed crates are due at once: crates go whole, new ones
first and then those that were seen the longest ago, and those that would pass it wait for a later gate."""
import os
import re
import sys
import time

import edits
import names
import notes

LEFT = ("seen", "waits", "later")


class Line:
    """An edit in a plan."""

    def __init__(self, crate, name, own, total, why):
        self.crate, self.name, self.own, self.total, self.why = crate, name, own, total, why

    def key(self):
        """Returns its crate and name, as the notes have them."""
        return f"{self.crate}/{self.name}"

    def told(self):
        """Returns it as a line."""
        return f"{self.crate} {self.name} {self.own} {self.total} {self.why}"


def why_of_crate(noted, crate, own):
    """Returns why all edits of a crate are due, or nothing where it is as it was when one was seen refused."""
    if noted.knows(crate, own):
        return None
    return "changed" if noted.of_crate(crate) else "new"


def lines_of_crate(tree, crate, noted, why=None):
    """Returns a line for each edit of a crate: with this word of why, that of its crate, or else `below` or `seen`."""
    wanted = edits.Wanted(tree, crate)
    own = wanted.own_sum(os.environ["KIT"])
    why = why or why_of_crate(noted, crate, own)
    lines = []
    for it in wanted.edits:
        line = Line(crate, it.name, own, wanted.edit_sum(it), why)
        line.why = why or ("below" if noted.time(line.key(), own, line.total) is None else "seen")
        lines.append(line)
    return lines


def oldest(lines, noted):
    """Returns when that edit of a crate was seen which was seen the longest ago, or 0 where one never was."""
    return min(noted.last_time(it.key()) for it in lines)


def hold_back(by_crate, noted):
    """Has changed crates wait for a later gate that would bring more edits than one gate can try."""
    changed = [crate for crate, lines in by_crate.items() if lines[0].why in ("new", "changed")]
    changed.sort(key=lambda it: (by_crate[it][0].why != "new", oldest(by_crate[it], noted), it))
    left = int(os.environ.get("MOST_CHANGED", 4 * len(os.sched_getaffinity(0))))
    for crate in changed:
        if len(by_crate[crate]) <= left or crate == changed[0]:
            left -= len(by_crate[crate])
        else:
            for it in by_crate[crate]:
                it.why = "later"


def let_wait(by_crate, noted, room):
    """Has edits whose names changed below wait that have no room, and returns how many have."""
    below = [it for lines in by_crate.values() for it in lines if it.why == "below"]
    below.sort(key=lambda it: (noted.last_time(it.key()), it.crate, it.name))
    for it in below[max(0, room) :]:
        it.why = "waits"
    return len(below)


def take_turns(by_crate, noted, count, most):
    """Makes crates due in turn beside the edits that are counted, those first that were seen the longest ago."""
    rest = [crate for crate, lines in by_crate.items() if all(it.why == "seen" for it in lines)]
    rest.sort(key=lambda it: (oldest(by_crate[it], noted), it))
    for crate in rest[: int(os.environ.get("TURNS", "2"))]:
        count += len(by_crate[crate])
        if most < count and count != len(by_crate[crate]):
            break
        for it in by_crate[crate]:
            it.why = "turn"


def plan(tree, noted):
    """Returns the lines of the crates that are due."""
    by_crate = {crate: lines_of_crate(tree, crate, noted) for crate in tree.crates}
    by_crate = {crate: lines for crate, lines in by_crate.items() if lines}
    hold_back(by_crate, noted)
    most = int(os.environ.get("MOST_EDITS", "16"))
    own = sum(1 for lines in by_crate.values() for it in lines if it.why in ("new", "changed"))
    below = let_wait(by_crate, noted, most - own)
    take_turns(by_crate, noted, own + below, most)
    return [it for lines in by_crate.values() if any(it.why != "seen" for it in lines) for it in lines]


WHY = {
    "new": "new",
    "changed": "changed",
    "below": "names below changed",
    "turn": "in turn",
    "asked": "asked for",
    "waits": "wait for a later gate: names below changed",
    "later": "wait for a later gate: changed, beside more than a gate can try",
}


def tell(lines):
    """Prints a plan, a line for each crate and why."""
    groups = {}
    for it in lines:
        groups.setdefault((it.crate, it.why), []).append(it.name.removesuffix(".edit"))
    for (crate, why), found in groups.items():
        if why in WHY:
            count = sum(1 for it in lines if it.crate == crate)
            which = f": {' '.join(found)}" if why in ("below", "waits") else ""
            print(f"{crate} {len(found)} of {count}, {WHY[why]}{which}")
    waiting = sum(1 for it in lines if it.why in ("waits", "later"))
    tried = sum(1 for it in lines if it.why not in LEFT)
    print(f"{tried} mutants are due, and {waiting} wait for a later gate")


def read_plan(path):
    """Returns the lines of a plan, by crate."""
    by_crate = {}
    with open(path, encoding="utf-8") as file:
        for words in map(str.split, file):
            by_crate.setdefault(words[0], []).append(Line(*words))
    return by_crate


def is_form_alone(said):
    """Returns whether an edit was refused at no goal of a source: only since a proof file names what it took away, or
    by a limit of the prover."""
    return ": refused, as it must be (only" in said


def note_crate(noted, crate, lines, log):
    """Notes of a crate what the log says of the edits that were tried. Returns whether all were refused, and each new
    one at a goal."""
    tried = [it for it in lines if it.why not in LEFT]
    said = {it[1]: it[0] for it in re.finditer(rf"^(?:rt: )?must-fail ({crate}/[^ :]+): .*$", log, re.M)}
    refused = [it for it in tried if ": refused, as it must be" in said.get(it.key(), "")]
    # Such a refusal shows nothing of a contract. The edit isn't noted, so it stays due until it is changed.
    by_form = [it for it in refused if is_form_alone(said[it.key()])]
    for it in by_form:
        print(f"no goal of a source failed: {said[it.key()][:200]}")
    if len(refused) < len(tried) or any(it.key() not in noted.seen for it in by_form):
        noted.drop(crate)
        print(f"{crate}: FAILED: {len(refused) - len(by_form)} of {len(tried)} mutants refused at a goal")
        for it in tried:
            if it not in refused:
                print(said.get(it.key(), f"must-fail {it.key()}: not tried"))
        return False
    now = int(time.time())
    for it in tried:
        if it not in by_form:
            noted.add(it.key(), it.own, it.total, now)
    if tried:
        of_these = f", {len(by_form)} of them by form alone" if by_form else ""
        print(f"{crate}: {len(tried)} mutants refused{of_these}")
    return True


def note(path, logs):
    """Notes by a plan what the logs say; returns whether all that was tried was refused."""
    log = ""
    for it in logs:
        with open(it, encoding="utf-8", errors="replace") as file:
            log += file.read()
    with notes.changing(notes.store()) as noted:
        done = [note_crate(noted, crate, lines, log) for crate, lines in read_plan(path).items()]
    print(f"{done.count(True)} crates passed, {done.count(False)} failed")
    return all(done)


def tell_faults(tree):
    """Prints the edits that can't be applied, and returns whether all can."""
    found = edits.faults(tree)
    print("\n".join([*found, f"{len(found)} mutants can't be applied"]))
    return not found


def make_plan(tree, path, chosen):
    """Writes the plan of what is due, or of the chosen crates, and prints it."""
    noted = notes.Notes(notes.store())
    if chosen:
        lines = [line for it in chosen for line in lines_of_crate(tree, it, noted, "asked")]
    else:
        lines = plan(tree, noted)
    with open(path, "w", encoding="utf-8") as file:
        file.writelines(f"{it.told()}\n" for it in lines)
    tell(lines)
    return True


def main(top, command, *words):
    """Runs a command, and returns the exit status."""
    if command == "note":
        return 0 if note(words[0], words[1:]) else 1
    tree = names.Tree(top)
    return 0 if (tell_faults(tree) if command == "apply" else make_plan(tree, words[0], words[1:])) else 1


if __name__ == "__main__":
    sys.exit(main(*sys.argv[1:]))
