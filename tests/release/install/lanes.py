#!/usr/bin/env python3
"""The order of install/: that no crate begins before those that it needs, never more at once than there are lanes,
first those with the longest chain of others after them; how many lanes there are; what is reckoned; and what is printed
at a pace that isn't the table's. It prints what isn't so."""
import contextlib
import io
import os
import sys

sys.path.insert(0, f"{os.path.dirname(os.path.realpath(__file__))}/../../../install")
import order
import prove

# By crate: those that it needs, and its seconds. The longest chain is c, e, g, h; of what then is left, that of b is
# longer than that of a.
CRATES = {
    "a": ("", 1), "b": ("", 2), "c": ("", 3), "d": ("a", 1), "e": ("c", 9), "f": ("b", 1), "g": ("e", 9), "h": ("dfg", 9),
}
SECONDS = {name: seconds for name, (_, seconds) in CRATES.items()}


def begun(count):
    """Takes crates in so many lanes, of which each time the one that began first ends. Returns what began beside what.
    """
    below = order.below_of({name: f"{name}: {' '.join(needed)}" for name, (needed, _) in CRATES.items()})
    left, running, found = order.Order(CRATES, below, SECONDS), [], []
    while left.left:
        while len(running) < count and (crate := left.next()):
            found.append((crate, set(left.left)))
            running.append(crate)
        left.is_done(running.pop(0))
    return found


def faults_of_pace():
    """Yields what is said wrong of two crates of 100 seconds by the table, one after the other."""
    now = 0
    prove.time.monotonic = lambda: now
    # (at half of the table's pace the second takes 200 seconds; one that was kept says nothing of the pace)
    for is_kept, lasts in ((False, 200), (True, 100)):
        now = 0
        progress = prove.Progress({"low": "low:", "high": "high: low"}, [1])
        progress.begins(0, "low")
        now = 200
        with contextlib.redirect_stderr(io.StringIO()):
            progress.is_done(0, "low", is_kept)
        for begun, wanted in ((None, lasts), (0, lasts), (50, lasts - 50), (300, 0)):
            if begun is not None:
                progress.running, now = {0: ("high", 200)}, 200 + begun
            if abs(progress.minutes_left() * 60 - wanted) > 0.01:
                yield f"{begun} seconds after the second began {progress.minutes_left() * 60} are said to be left, and not {wanted}"


def faults():
    """Yields what isn't as it is to be."""
    for count, wanted in ((1, "cegbadfh"), (2, "cbeagdfh"), (3, "cbaefdgh")):
        taken = begun(count)
        if "".join(name for name, _ in taken) != wanted:
            yield f"{count} lanes: {taken} began"
        for name, left in taken:
            if left & set(CRATES[name][0]):
                yield f"{count} lanes: {name} began before what it needs"
    for processors, gigabytes, wanted in ((1, 24, [1]), (2, 24, [1, 1]), (4, 24, [2, 1, 1]), (16, 64, [4] + [1] * 12), (4, 6, [1, 1]), (4, 1, [1])):
        if order.lanes_of(processors, gigabytes * 10**9) != wanted:
            yield f"{processors} processors with {gigabytes} GB have the lanes {order.lanes_of(processors, gigabytes * 10**9)}"
    below = order.below_of({name: f"{name}: {' '.join(needed)}" for name, (needed, _) in CRATES.items()})
    # (the chain c, e, g, h has 30 seconds, all crates have 35; in the first of two lanes with more jobs each takes 0.67
    # of its seconds)
    for lanes, wanted in (([1], 35), ([1, 1], 30), ([2, 1], 30 * 0.67)):
        told = order.reckoned(set(CRATES), below, SECONDS, lanes, {})
        if abs(told - wanted) > 0.01:
            yield f"in the lanes {lanes} all is said to take {told} seconds"
    # (a and c are done, e takes 4 seconds more in the first lane, and b 1 more in the second: e, g and h are the
    # longest)
    told = order.reckoned(set("bdefgh"), below, SECONDS, [1, 1], {0: (4, "e"), 1: (1, "b")})
    if told != 4 + 9 + 9:
        yield f"what is left beside two crates that began is said to take {told} seconds"


def main():
    found = [*faults(), *faults_of_pace()]
    print("\n".join(found))
    return 1 if found else 0


if __name__ == "__main__":
    sys.exit(main())
