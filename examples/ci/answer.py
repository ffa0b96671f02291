#!/usr/bin/env python3
"""answer.py < ANSWER: writes as JSON what `pulsefarm hunt` prints: a failure with its schedule and report, none, each outcome, or a refusal; and
behind how many seeds a hunt for a time stopped, if it did."""
import json
import re
import sys

STOPPED = re.compile(r"stopped after (\d+) seeds")
NONE = re.compile(r"no failure in (\d+) seeds")
ROW = re.compile(r"(holds|fails) (\d+) seeds, least (\d+): (.*)")


def numbers(schedule):
    return [] if schedule == "none" else [int(it) for it in schedule.split(",")]


def strategy(lines):
    return "pos" if "strategy pos" in lines[:3] else "uniform"


def failure(lines):
    """Returns the failure of a hunt: its seed, and the schedule that its report is of, which with --shrink is the one that was found."""
    schedules = [it.removeprefix("schedule ") for it in lines if it.startswith("schedule ")]
    search = next((it for it in lines if it in ("complete", "partial")), None)
    events = [it for it in lines if re.match(r"\d+/\d+ <", it)]
    named = [it.removeprefix("fails ") for it in lines[1:2] if it.startswith("fails ")]
    return {
        "answer": "failure",
        "seed": int(lines[0].removeprefix("seed ")),
        **({"property": named[0]} if named else {}),
        "strategy": strategy(lines),
        "schedule": numbers(schedules[-1]),
        **({"shrinking": search} if search else {}),
        "events": events,
        "outcome": lines[-3],
        "steps": int(lines[-2].removeprefix("steps ")),
    }


def read(lines):
    """Returns what an answer tells."""
    stopped = STOPPED.fullmatch(lines[0]) if lines else None
    if stopped:
        return {**read(lines[1:]), "stopped": int(stopped[1])}
    rows = [ROW.fullmatch(it) for it in lines if it != "strategy pos"]
    none = NONE.fullmatch(lines[0]) if lines else None
    if none:
        return {"answer": "none", "seeds": int(none[1])}
    if rows and all(rows):
        return {"answer": "outcomes", "strategy": strategy(lines), "outcomes": [{"property": it[1], "seeds": int(it[2]), "least": int(it[3]), "outcome": it[4]} for it in rows]}
    if len(lines) >= 5 and lines[0].startswith("seed ") and lines[-1] == "property fails":
        return failure(lines)
    return {"answer": "refused", "why": lines[0] if len(lines) == 1 else ""}


def main():
    lines = sys.stdin.buffer.read().decode(errors="replace").split("\n")
    json.dump(read(lines[:-1] if lines[-1] == "" else lines), sys.stdout, indent=1)
    print()


if __name__ == "__main__":
    main()
