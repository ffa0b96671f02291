#!/usr/bin/env python3
"""proofs.py CRATE [COUNT]: checks a crate from nothing at one job, and prints which of its functions, and which of its
own proofs, took longest.

What a check has proved it keeps at once, a file for each step of a function and for each module of specs and proofs. So the time since the
file before is what a file took, but for a library that was read meanwhile. What is in crates/CRATE/out/incremental is lost."""
import os
import shutil
import subprocess
import sys
import time


def kept(folder):
    """Returns for each file below a folder when it was written, and its name without the folder."""
    for where, _, names in os.walk(folder):
        for name in names:
            yield os.stat(os.path.join(where, name)).st_mtime, name


def seconds(crate, folder, start):
    """Returns the seconds of each function, or module of specs and proofs, by its name."""
    found, last = {}, start
    for when, name in sorted(kept(folder)):
        if name.startswith(f"Rattle-{crate}-"):
            parts = name.removeprefix(f"Rattle-{crate}-").split(".")
            what = ".".join(it for it in parts if it not in ("decls", "oantt"))
            for step in ("Lts", "Tie", "Proof", "Code", "Answers", "Goals", "Kinds"):
                what = what.partition(f".{step}")[0]
            found[what] = found.get(what, 0) + when - last
        last = when
    return found


def main(crate, count="20"):
    """Checks the crate, and prints a table; returns the exit status of the check."""
    folder = f"crates/{crate}/out/incremental"
    os.chdir(os.path.join(os.path.dirname(os.path.realpath(__file__)), ".."))
    if not os.path.isdir(f"crates/{crate}"):
        sys.exit(f"there is no crate {crate}")
    subprocess.run(["rt", "check", "--only="], cwd=f"crates/{crate}", stdout=subprocess.DEVNULL, check=False)
    shutil.rmtree(folder, ignore_errors=True)
    start = time.time()
    status = subprocess.run(["rt", "check", "--jobs", "1"], cwd=f"crates/{crate}", stdout=subprocess.DEVNULL, check=False).returncode
    print(f"| {crate}, {time.time() - start:.0f} seconds | seconds |\n|---|---|")
    found = seconds(crate, folder, start)
    for what in sorted(found, key=found.get, reverse=True)[: int(count)]:
        print(f"| {what} | {found[what]:.1f} |")
    return status


if __name__ == "__main__":
    if len(sys.argv) not in (2, 3):
        sys.exit("usage: proofs.py CRATE [COUNT]")
    sys.exit(main(*sys.argv[1:]))
