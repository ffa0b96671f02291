#!/usr/bin/env python3
"""Shards commands of `pulsefarm steps` by project: a project is told what it is told alone, so each can go to another machine.

  projects.py split FILE FOLDER   writes the commands of each project P of FILE to FOLDER/P.steps
  projects.py join FILE FOLDER    prints what one `pulsefarm steps FILE` prints, from the answers in FOLDER/P.told

Between the two, `pulsefarm steps P.steps > P.told` answers each project's commands, wherever it runs. Where answers are missing, `join` tells on standard
error of which projects, and the status is 2.
"""
import collections
import os
import re
import sys

# The commands, by how many words stand before the project: none in a client's, the worker in a worker's, and two
# workers in a theft.
VERBS = {
    **dict.fromkeys(b"submit order shrink fetch status drop withdraw usage log edition".split(), 1),
    **dict.fromkeys(b"claim slice park take file back".split(), 2),
    b"steal": 3,
}
NUMBER = re.compile(rb"0|[1-9][0-9]{0,9}")
LONG = re.compile(rb"p[0-9]+ (?:report|shrunk [0-9a-z,]+ (?:complete|partial)) ([0-9]+)")


def stop(why):
    print(f"projects.py: {why}", file=sys.stderr)
    sys.exit(2)


def read(path):
    try:
        with open(path, "rb") as file:
            return file.read()
    except OSError as error:
        stop(f"{path}: {error.strerror}")


def commands_of(path):
    """Yields the project and the bytes of each command of a file: a line, and behind a submission its source and its line end."""
    text, at, count = read(path), 0, 0
    while at < len(text):
        count += 1
        end = text.find(b"\n", at) + 1 or len(text)
        words = text[at:end].rstrip(b"\n").split(b" ")
        index = VERBS.get(words[0], 0)
        if not 0 < index < len(words) or not NUMBER.fullmatch(words[index]):
            stop(f"{path}: command {count} is none")
        if words[0] == b"submit":
            if len(words) != 3 or not NUMBER.fullmatch(words[2]):
                stop(f"{path}: command {count} is none")
            end += int(words[2])
            if end > len(text) or text[end : end + 1] not in (b"\n", b""):
                stop(f"{path}: the source of command {count} doesn't end where its length says")
            end = min(end + 1, len(text))
        yield words[index].decode(), text[at:end]
        at = end


def split(path, folder):
    parts = {}
    for project, command in commands_of(path):
        parts.setdefault(project, []).append(command)
    os.makedirs(folder, exist_ok=True)
    for project, commands in parts.items():
        with open(f"{folder}/{project}.steps", "wb") as file:
            file.write(b"".join(commands))


def answers_of(text):
    """Yields the answers of a text, each with the lines of its report."""
    lines, at = text.split(b"\n")[:-1], 0
    while at < len(lines):
        long = LONG.fullmatch(lines[at])
        end = at + 1 + (int(long[1]) if long else 0)
        if end > len(lines):
            return
        yield b"".join(it + b"\n" for it in lines[at:end])
        at = end


def join(path, folder):
    asked = [project for project, _ in commands_of(path)]
    told = {it: [] for it in asked}
    for it in told:
        if os.path.exists(f"{folder}/{it}.told"):
            told[it] = [*answers_of(read(f"{folder}/{it}.told"))]
    count = collections.Counter(asked)
    lacking = [it for it in told if len(told[it]) != count[it]]
    for it in lacking:
        print(f"the commands of project {it} are to be run again", file=sys.stderr)
    if lacking:
        return 2
    rest = {it: iter(answers) for it, answers in told.items()}
    for it in asked:
        sys.stdout.buffer.write(next(rest[it]))
    return 0


def main(words):
    if len(words) != 3 or words[0] not in ("split", "join"):
        stop("usage: projects.py split|join FILE FOLDER")
    return split(*words[1:]) if words[0] == "split" else join(*words[1:])


if __name__ == "__main__":
    sys.exit(main(sys.argv[1:]))
