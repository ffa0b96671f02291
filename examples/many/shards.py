#!/usr/bin/env python3
"""shards.py A..B N [K]: cuts the seeds from A to before B into N shards, as even as can be, and prints each on a line, or shard K alone, from 0 on."""
import os
import re
import sys

MOST = 2**64 - 1


def stop(why):
    print(f"{os.path.basename(sys.argv[0])}: {why}", file=sys.stderr)
    sys.exit(2)


def number(text, what):
    if not re.fullmatch(r"0|[1-9][0-9]*", text):
        stop(f"{what} is a number without leading zeros, and no {text!r}")
    return int(text)


def seeds_of(text):
    """Returns the first seed and the end of a range A..B."""
    first, dots, end = text.partition("..")
    if not dots:
        stop(f"seeds are A..B, and no {text!r}")
    first, end = number(first, "a seed"), number(end, "a seed")
    if not first < end <= MOST:
        stop(f"of seeds A..B, A is below B and B at most {MOST}: {text!r} isn't so")
    return first, end


def shards_of(first, end, count):
    return [f"{first + (end - first) * it // count}..{first + (end - first) * (it + 1) // count}" for it in range(count)]


def main(words):
    if len(words) not in (2, 3):
        stop("usage: shards.py A..B N [K]")
    first, end = seeds_of(words[0])
    count = number(words[1], "the number of shards")
    if not 1 <= count <= end - first:
        stop(f"{end - first} seeds make from 1 to {end - first} shards, and no {count}")
    shards = shards_of(first, end, count)
    if len(words) == 3:
        one = number(words[2], "a shard's number")
        if one >= count:
            stop(f"the last of {count} shards is {count - 1}: there is no {one}")
        shards = shards[one : one + 1]
    print("\n".join(shards))


if __name__ == "__main__":
    main(sys.argv[1:])
