#!/usr/bin/env python3
"""prove.py TREE: proves the program of TREE and the crates below it, side by side, and leaves the program in
crates/pulsefarm/out.

`rt ci` does the work, crate by crate, in a copy that has these crates alone. They go in the order of need, first those with the longest chain of others
after them, as many at once as processors and memory hold; the first has half of the processors, as all wait for that chain. `rt` keeps each as soon as it is proved, beside
the kit, where the gate finds it: so what the gate proved on this machine isn't proved again, and a run that was stopped goes on where it was.

What it is at goes to standard error. Where a crate isn't proved the last 30 lines of its log do too, and the status is 1. Where it is stopped the status
is 130.
"""
import contextlib
import glob
import os
import re
import selectors
import shutil
import signal
import subprocess
import sys
import tempfile
import time

sys.dont_write_bytecode = True
import order

PROGRAM = "pulsefarm"
# What a proof and a run of a crate read. (Mutants, in must-fail/, are the gate's.)
PARTS = ("src", "specs", "proofs", "data", "stdin", "stdout", "args", "status")
LINES_OF_A_LOG = 30
PROVED = re.compile(r"rt: (\w+) (proved$|is kept: )")
NOT_PROVED = re.compile(r"rt: (\w+) NOT PROVED")


class Stopped(Exception):
    """Somebody stopped the run."""


class Failed(Exception):
    """A crate isn't proved: the log of `rt`."""


class NotKept(Exception):
    """A run proved again what another had proved, or took no name: `rt` keeps nothing, as where the disk is full or the
    kit is an old one.
    """


class Progress:
    """How far the proofs are: one line that is written over on a terminal, else a line for each crate."""

    def __init__(self, crates, lanes):
        self.below, self.seconds, self.left = order.below_of(crates), order.seconds_of(crates), set(crates)
        self.lanes, self.is_terminal, self.last = lanes, sys.stderr.isatty(), ""
        self.start = time.monotonic()
        # by lane: the crate that is proved there, and since when
        self.running = {}
        # the seconds that the proofs took which were timed, and what the table has for them
        self.took, self.of_table = 0, 0

    def begins(self, lane, crate):
        self.running[lane] = crate, time.monotonic()

    def is_done(self, lane, crate, is_kept):
        if lane in self.running:
            running, began = self.running.pop(lane)
            if not is_kept:
                self.took += time.monotonic() - began
                self.of_table += self.seconds_in(lane, crate)
            if running != crate:
                self.begins(lane, running)
        self.left.discard(crate)
        self.last = f"{crate} {'is kept' if is_kept else 'proved'}; "
        self.tell()

    def seconds_in(self, lane, crate):
        return order.seconds_by(self.lanes[lane], self.seconds[crate])

    def seconds_so_far(self):
        return time.monotonic() - self.start

    def minutes_left(self):
        """Returns the minutes that are left, by the table, by the pace so far, and by how long what is proved now has
        taken.
        """
        pace = self.took / self.of_table if self.took > 60 else 1
        now = time.monotonic()
        running = {
            lane: (max(self.seconds_in(lane, crate) - (now - began) / pace, 0), crate) for lane, (crate, began) in self.running.items()
        }
        return order.reckoned(self.left, self.below, self.seconds, self.lanes, running) * pace / 60

    def tell(self):
        of = len(self.below)
        text = f"{self.last}{of - len(self.left)} of {of} crates, {self.seconds_so_far() / 60:.0f} minutes so far, some {self.minutes_left():.0f} more"
        print(f"\r\033[K{text}" if self.is_terminal else text, end="" if self.is_terminal else "\n", file=sys.stderr, flush=True)

    def end(self):
        if self.is_terminal:
            print(file=sys.stderr)


def copied(tree, crates, room):
    """Makes the copy in which the proofs run: the top of a repository that has these crates alone."""
    # (rt takes a folder with .git for the top of a repository)
    os.makedirs(f"{room}/.git")
    with open(f"{room}/crates.txt", "w", encoding="utf-8") as file:
        file.writelines(crates.values())
    if os.path.exists(f"{tree}/HANDLES"):
        shutil.copy(f"{tree}/HANDLES", room)
    for name in crates:
        os.makedirs(f"{room}/crates/{name}")
        for part in PARTS:
            one = f"{tree}/crates/{name}/{part}"
            if os.path.isdir(one):
                shutil.copytree(one, f"{room}/crates/{name}/{part}")
            elif os.path.exists(one):
                shutil.copy(one, f"{room}/crates/{name}")


class Run:
    """A run of `rt ci`, of one crate and those below it or of all, and its log since it last began a crate."""

    def __init__(self, room, lane, crate=None, jobs=None):
        # (with RT_JOBS rt gives a proof one job; where CI is set it takes no names)
        fixed = {"RT_JOBS": "1"} if crate and jobs == 1 else {}
        environment = {name: value for name, value in os.environ.items() if name != "CI" or not crate} | fixed
        words = ["rt", "ci", crate] if crate else ["rt", "ci"]
        self.lane, self.crate, self.log, self.text, self.has_begun = lane, crate, [], b"", False
        # (in a group of its own: Ctrl-C is ours to hand on, and rt, which ends at SIGTERM at once, takes all its checks
        # with it)
        self.process = subprocess.Popen(
            words, cwd=room, env=environment, stdin=subprocess.DEVNULL, stdout=subprocess.PIPE, stderr=subprocess.STDOUT, start_new_session=True
        )

    def goes_on(self, progress):
        """Takes what it said since, and reports the crates that are done. Returns whether it goes on."""
        more = os.read(self.process.stdout.fileno(), 65536)
        *lines, self.text = (self.text + more).split(b"\n") if more else (self.text, b"")
        for line in lines:
            self.take(line.decode(errors="replace"), progress)
        if not more and self.process.wait():
            # (what else can be wrong before the first crate, the run over all says)
            raise NotKept if self.crate and not self.has_begun else Failed(self.log)
        return bool(more)

    def take(self, line, progress):
        if line.startswith("== "):
            self.log, self.has_begun = [], True
        self.log.append(line)
        done = PROVED.match(line)
        if done and done[1] in progress.left:
            progress.is_done(self.lane, done[1], done[2] != "proved")
        elif done and done[2] == "proved" and self.crate:
            raise NotKept
        if NOT_PROVED.match(line):
            raise Failed(self.log)

    def end(self):
        self.process.terminate()
        self.process.wait()


class Runs:
    """The runs that go on."""

    def __init__(self, room, progress):
        self.room, self.progress, self.selector = room, progress, selectors.DefaultSelector()

    def __enter__(self):
        return self

    def __exit__(self, *_):
        for key in list(self.selector.get_map().values()):
            key.data.end()

    def begin(self, lane, crate=None, jobs=None):
        run = Run(self.room, lane, crate, jobs)
        if crate:
            self.progress.begins(lane, crate)
        self.selector.register(run.process.stdout, selectors.EVENT_READ, run)

    def lanes(self):
        return {key.data.lane for key in self.selector.get_map().values()}

    def ended(self):
        """Waits until some run says something, and yields those that ended."""
        ready = self.selector.select(5)
        if not ready and self.progress.is_terminal:
            self.progress.tell()
        for key, _ in ready:
            if not key.data.goes_on(self.progress):
                self.selector.unregister(key.fileobj)
                yield key.data


def prove_side_by_side(room, crates, lanes, progress):
    """Has these crates proved, each by a run of its own."""
    left = order.Order(crates, {name: progress.below[name] & set(crates) for name in crates}, progress.seconds)
    with Runs(room, progress) as runs:
        while left.left:
            for lane in sorted(set(range(len(lanes))) - runs.lanes()):
                crate = left.next()
                if crate:
                    runs.begin(lane, crate, lanes[lane])
            for run in runs.ended():
                left.is_done(run.crate)


def prove_rest(room, progress):
    """Has all that isn't kept proved by one run, which leaves the program in the copy."""
    with Runs(room, progress) as runs:
        # (of a run over several crates it isn't known which it is at)
        progress.running = {}
        if progress.left == {PROGRAM}:
            progress.begins(0, PROGRAM)
        runs.begin(0)
        while runs.lanes():
            list(runs.ended())


def store():
    """Returns the folder in which the kit keeps what is proved."""
    kit = os.path.dirname(os.path.dirname(os.path.realpath(shutil.which("rt"))))
    return f"{os.path.dirname(kit)}/rattle-kept"


def keeps():
    """Returns whether the kit can keep what is proved."""
    return os.access(store() if os.path.exists(store()) else os.path.dirname(store()), os.W_OK)


def newest(paths):
    """Returns when the newest of these files and folders, and of what is in them, was changed."""
    walked = [f"{at}/{name}" for path in paths for at, folders, files in os.walk(path) for name in [*folders, *files]]
    return max((os.stat(it).st_mtime for it in [*paths, *walked] if os.path.exists(it)), default=0)


def unkept(tree, crates):
    """Returns the crates but the program of which nothing is kept since they, or crates below, were changed. (Of the
    others rt itself sees whether they are as they were.)
    """
    changed = {name: newest([f"{tree}/crates/{name}/{part}" for part in PARTS]) for name in crates}
    below = order.below_of(crates)
    kept = {name: newest(glob.glob(f"{glob.escape(store())}/proof-{name}-*")) for name in crates}
    return [name for name in crates if name != PROGRAM and kept[name] < max(changed[it] for it in {name} | below[name])]


def take(room, tree):
    """Puts the program that was built in the copy where the tree has it."""
    out = f"{tree}/crates/{PROGRAM}/out"
    os.makedirs(out, exist_ok=True)
    shutil.copy(f"{room}/crates/{PROGRAM}/out/{PROGRAM}", f"{out}/{PROGRAM}.new")
    os.replace(f"{out}/{PROGRAM}.new", f"{out}/{PROGRAM}")


def stop(*_):
    raise Stopped


def prove(tree, is_kept):
    """Proves the program of the tree and leaves it there. Returns the status."""
    crates, lanes = order.crates_of(tree, [PROGRAM]), order.lanes()
    with tempfile.TemporaryDirectory(prefix="pulsefarm-install-") as room:
        copied(tree, crates, f"{room}/tree")
        progress = Progress(crates, lanes)
        progress.tell()
        try:
            if is_kept:
                with contextlib.suppress(NotKept):
                    prove_side_by_side(f"{room}/tree", unkept(tree, crates), lanes, progress)
            prove_rest(f"{room}/tree", progress)
        except Failed as failed:
            progress.end()
            print("\n".join(failed.args[0][-LINES_OF_A_LOG:]), file=sys.stderr)
            return 1
        progress.end()
        take(f"{room}/tree", tree)
    return 0


def main(words):
    if len(words) != 1:
        sys.exit("usage: prove.py TREE")
    if not shutil.which("rt"):
        sys.exit("there is no rt on the path: the kit rattle-kit-13f has it")
    for number in (signal.SIGINT, signal.SIGTERM, signal.SIGHUP):
        # (under nohup it goes on where the terminal is closed)
        if number != signal.SIGHUP or signal.getsignal(number) != signal.SIG_IGN:
            signal.signal(number, stop)
    goes_on = keeps()
    if not goes_on:
        print("the kit's folder rattle-kept can't be written, so nothing is kept before the end: if this is stopped, it begins anew", file=sys.stderr)
    try:
        return prove(os.path.abspath(words[0]), goes_on)
    except Stopped:
        print("stopped" + ("; what is proved is kept, and the same command goes on from there" if goes_on else ""), file=sys.stderr)
        return 130


if __name__ == "__main__":
    sys.exit(main(sys.argv[1:]))
