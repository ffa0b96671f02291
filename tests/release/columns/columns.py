"""Sees that lines are at most 120 columns wide: of crates and pages all, of scripts those of comments.

A text in quotes counts for nothing, since it can't be broken, nor does a line of one that goes on. An attribute is one
line to `rt fmt`.
"""

import os
import re
import subprocess
import sys

MOST = 120
WHOLE = (".rt", ".antt", ".md")
COMMENTS = (".sh", ".py")
# (reports name the lines of modules of Erlang)
FIXED = ("port/", "examples/")
QUOTED = re.compile(r'"(?:[^"\\]|\\.)*"')
COMMENT = re.compile(r"\s*(?:#|%|\"\"\")")


def files(top):
    """The files that are under version control, by their paths from the top."""
    listed = subprocess.run(["git", "-C", top, "ls-files", "-z"], capture_output=True, check=True)
    return sorted(listed.stdout.decode().rstrip("\0").split("\0"))


def is_judged(top, path):
    if path.startswith(FIXED) or not path.endswith(WHOLE + COMMENTS):
        return False
    return os.path.isfile(os.path.join(top, path))


def is_long(path, line):
    if len(line) <= MOST or line.endswith("\\n\\") or line.lstrip().startswith("#["):
        return False
    if path.endswith(COMMENTS):
        return bool(COMMENT.match(line))
    return len(QUOTED.sub('""', line)) > MOST


def long_lines(top, path):
    with open(os.path.join(top, path), encoding="utf-8") as it:
        return [number for number, line in enumerate(it.read().split("\n"), 1) if is_long(path, line)]


def main(top):
    passed, failed = 0, 0
    for path in files(top):
        if not is_judged(top, path):
            continue
        found = long_lines(top, path)
        for number in found:
            print(f"{path}:{number}: this line passes {MOST} columns")
        passed, failed = passed + (not found), failed + bool(found)
    print(f"{passed} passed, {failed} failed")
    return 1 if failed else 0


if __name__ == "__main__":
    sys.exit(main(sys.argv[1]))
