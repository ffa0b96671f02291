"""The order in which crates are proved: which there are, what each needs, which goes next, and how long all of it takes
by the table.
"""
import os
import re
import sys

SECONDS_OF_A_NEW_CRATE = 100
# The memory of a proof.
BYTES_OF_A_PROOF = 2_500_000_000
# Of the seconds that a proof takes by one job, what it takes by two or more.
BY_MORE_JOBS = 0.67
# The most jobs that rt gives a proof.
MOST_JOBS = 4


def crates_of(tree, tops):
    """Returns the lines of crates.txt for the crates TOPS, and for all crates below, by name and in their order."""
    lines = {}
    with open(f"{tree}/crates.txt", encoding="utf-8") as file:
        for line in file:
            head, colon, _ = line.partition(":")
            if colon and not line.startswith("#"):
                lines[head.split()[0]] = line
    for name in tops:
        if name not in lines:
            sys.exit(f"crates.txt has no line of {name}")
    below = below_of(lines)
    wanted = set(tops).union(*(below[name] for name in tops))
    return {name: line for name, line in lines.items() if name in wanted}


def below_of(crates):
    """Returns for each crate the set of all those below it. (Its line names those that its own files cite.)"""
    found = {}

    def below(name):
        if name not in found:
            cited = [it for it in crates[name].partition(":")[2].split() if it in crates]
            found[name] = set(cited).union(*map(below, cited))
        return found[name]

    return {name: below(name) for name in crates}


def seconds_of(crates):
    """Returns the seconds of a processor that the proof of each crate is known to take."""
    known = {}
    with open(f"{os.path.dirname(os.path.realpath(__file__))}/seconds.txt", encoding="utf-8") as file:
        for line in file:
            if not line.startswith("#"):
                name, seconds = line.split()
                known[name] = int(seconds)
    return {name: known.get(name, SECONDS_OF_A_NEW_CRATE) for name in crates}


def chains_of(left, below, seconds):
    """Returns for each crate that is left the seconds of the longest chain of it and of crates above it."""
    found = {}
    for crate in sorted(left, key=lambda it: -len(below[it])):
        found[crate] = seconds[crate] + max((found[it] for it in found if crate in below[it]), default=0)
    return found


class Order:
    """The crates that are left, of which each may begin once none of those below it is left; first those with the
    longest chain.
    """

    def __init__(self, left, below, seconds):
        chains = chains_of(left, below, seconds)
        self.below, self.left = below, set(left)
        self.waiting = sorted(left, key=lambda it: -chains[it])

    def next(self):
        """Takes the crate that is to begin next, or none where each waits for another."""
        for crate in self.waiting:
            if not self.below[crate] & self.left:
                self.waiting.remove(crate)
                return crate
        return None

    def is_done(self, crate):
        self.left.discard(crate)
        if crate in self.waiting:
            self.waiting.remove(crate)


def lanes_of(processors, memory):
    """Returns how many jobs each lane has. The first, in which the longest chain goes, has half of the processors, as
    rt gives them to a proof that it runs alone.
    """
    count = max(1, min(processors, memory // BYTES_OF_A_PROOF))
    first = max(1, min(MOST_JOBS, count // 2))
    return [first] + [1] * (count - first)


def lanes():
    """Returns how many jobs each lane has on this machine; with RT_JOBS there are so many lanes of one."""
    fixed = os.environ.get("RT_JOBS", "")
    if fixed.isdigit() and int(fixed):
        return [1] * int(fixed)
    with open("/proc/meminfo", encoding="ascii") as file:
        free = int(re.search(r"MemAvailable: *(\d+)", file.read())[1]) * 1024
    return lanes_of(len(os.sched_getaffinity(0)), free)


def seconds_by(jobs, seconds):
    """Returns how long a proof of so many seconds by one job takes by these."""
    return seconds * (BY_MORE_JOBS if jobs > 1 else 1)


def reckoned(left, below, seconds, lanes_there, begun):
    """Returns how long the crates that are left take in these lanes by the table, in seconds. By lane `begun` has the
    seconds that a crate there still takes, and it.
    """
    order, running, now = Order(left, below, seconds), dict(begun), 0
    for _, crate in begun.values():
        order.waiting.remove(crate)
    while order.left:
        for lane in [it for it in range(len(lanes_there)) if it not in running]:
            crate = order.next()
            if crate:
                running[lane] = now + seconds_by(lanes_there[lane], seconds[crate]), crate
        first = min(running, key=running.get)
        now, crate = running.pop(first)
        order.is_done(crate)
    return now
