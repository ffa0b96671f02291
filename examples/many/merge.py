#!/usr/bin/env python3
"""merge.py A..B FOLDER: prints what one `pulsefarm hunt` prints of the seeds from A to before B, from the answers of its shards in FOLDER.

FOLDER has a file C..D for each shard. The status is that of the hunt: 1 where a run fails, else 0. Where seeds are missing that the answer needs, it tells
on standard error which are to be run again, and the status is 2. A file that isn't whole counts as missing: it gets the name C..D.cut, so that the shard's
command runs it again. What lies behind the least seed that fails isn't needed.
"""
import os
import re
import sys

sys.dont_write_bytecode = True
from shards import seeds_of, stop  # noqa: E402

NAME = re.compile(r"(?:0|[1-9][0-9]*)\.\.(?:0|[1-9][0-9]*)")
NONE = re.compile(rb"no failure in ([0-9]+) seeds\n")
POS = b"strategy pos"
FOUND = re.compile(rb"seed ([0-9]+)\n(?:fails [^\n]*\n)?(?:strategy pos\n)?schedule [^\n]*\n(?:.*\n)?property fails\n", re.S)
ROW = re.compile(rb"(holds|fails) ([0-9]+) seeds, least ([0-9]+): ([^\n]*)")


def rows_of(text, first, end):
    """Returns the rows (verdict, count, least seed, outcome) of a text that tells each outcome of these seeds, else none."""
    *lines, rest = text.removeprefix(POS + b"\n").split(b"\n")
    found = [ROW.fullmatch(it) for it in lines]
    if rest or not all(found):
        return []
    rows = [(it[1], int(it[2]), int(it[3]), it[4]) for it in found]
    is_whole = sum(it[1] for it in rows) == end - first and all(first <= it[2] < end for it in rows)
    return rows if is_whole else []


class Part:
    """What a shard answered of its seeds. The kind is `none`, `found`, `rows`, or `cut` where it isn't whole."""

    def __init__(self, folder, name):
        self.path, self.name = f"{folder}/{name}", name
        self.first, self.end = seeds_of(name)
        with open(self.path, "rb") as file:
            self.text = file.read()
        self.rows = rows_of(self.text, self.first, self.end)
        none, found = NONE.fullmatch(self.text), FOUND.fullmatch(self.text)
        self.kind = "rows" if self.rows else "cut"
        if none and int(none[1]) == self.end - self.first:
            self.kind = "none"
        if found and self.first <= int(found[1]) < self.end:
            self.kind = "found"


def parts_in(folder, first, end):
    """Returns the parts that lie in the folder, by rising seed, where they are parts of one hunt of these seeds."""
    if not os.path.isdir(folder):
        stop(f"there is no folder {folder}")
    parts = sorted((Part(folder, it) for it in os.listdir(folder) if NAME.fullmatch(it)), key=lambda it: it.first)
    for it in parts:
        if it.first < first or it.end > end:
            stop(f"{it.path} isn't a part of {first}..{end}")
    for one, behind in zip(parts, parts[1:]):
        if behind.first < one.end:
            stop(f"{one.path} and {behind.path} have seeds in common")
    if len({it.kind == "rows" for it in parts if it.kind != "cut"}) > 1:
        stop(f"{folder} has parts that tell each outcome and parts that tell the least seed that fails: they aren't of one hunt")
    return parts


def missing(whole, first, end):
    """Returns the ranges of the seeds from first to before end that no part has."""
    found = []
    for it in whole:
        if it.first >= end:
            break
        if first < it.first:
            found.append((first, it.first))
        first = it.end
    return [*found, (first, end)] if first < end else found


def sums(parts):
    """Returns the rows of all parts as one hunt tells them: each outcome once, by its least seed."""
    count, least = {}, {}
    for it in parts:
        for verdict, seeds, seed, outcome in it.rows:
            count[verdict, outcome] = count.get((verdict, outcome), 0) + seeds
            least[verdict, outcome] = min(least.get((verdict, outcome), seed), seed)
    rows = sorted(count, key=least.get)
    return b"".join(b"%b %d seeds, least %d: %b\n" % (verdict, count[verdict, outcome], least[verdict, outcome], outcome) for verdict, outcome in rows)


def answer(whole, first, end, found):
    """Returns the text and the status of the hunt."""
    if found:
        return found.text, 1
    if whole[0].kind == "none":
        return b"no failure in %d seeds\n" % (end - first), 0
    named = POS + b"\n" if whole[0].text.startswith(POS) else b""
    text = named + sums(whole)
    return text, int(b"\nfails " in b"\n" + text)


def main(words):
    if len(words) != 2:
        stop("usage: merge.py A..B FOLDER")
    (first, end), folder = seeds_of(words[0]), words[1]
    parts = parts_in(folder, first, end)
    whole = [it for it in parts if it.kind != "cut"]
    found = next((it for it in whole if it.kind == "found"), None)
    lacking = missing(whole, first, found.first if found else end)
    for it in parts:
        if it.kind == "cut" and any(one <= it.first < other for one, other in lacking):
            os.replace(it.path, f"{it.path}.cut")
    for one, other in lacking:
        print(f"the seeds {one}..{other} are to be run again", file=sys.stderr)
    if lacking:
        return 2
    text, status = answer(whole, first, end, found)
    sys.stdout.buffer.write(text)
    return status


if __name__ == "__main__":
    sys.exit(main(sys.argv[1:]))
