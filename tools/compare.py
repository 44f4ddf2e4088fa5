#!/usr/bin/env python3
"""Compares this program's output and status on drawn schedules with another program's.

    python3 tools/compare.py FIRST COUNT COMMAND [WORD ...]

COMMAND and its words are run with each schedule as standard input, beside `./rampart replay`, and every fifth time with the
word `short` behind both. Schedules are those of `tools/draw.py` with the numbers from FIRST on. Each difference is printed
with its number, and at the end how often the reports had what they are drawn for. The status is 1 where anything differs.
"""

import pathlib
import subprocess
import sys

from draw import drawn

OURS = [str(pathlib.Path(__file__).resolve().parent.parent / "rampart"), "replay"]
SHORT_EVERY = 5
SEEN = [b"\nmessage ", b"\nrefused ", b"\nliar ", b"\nspent ", b"\nhalted ", b" closing ", b" observer ", b" 1 : ", b" 2 : ",
        b"honest no\n", b"bounded no\n", b"agree no\n", b"sound no\n", b"stop 7 "]


def answer(command, data):
    done = subprocess.run(command, input=data, stdout=subprocess.PIPE, check=False)
    return done.returncode, done.stdout


def first_difference(ours, theirs):
    if ours[0] != theirs[0]:
        return "status %d, not %d" % (ours[0], theirs[0])
    mine, other = ours[1].split(b"\n"), theirs[1].split(b"\n")
    for i, (a, b) in enumerate(zip(mine, other)):
        if a != b:
            return "line %d: %r, not %r" % (i + 1, a[:80], b[:80])
    return "%d lines, not %d" % (len(mine), len(other))


def main(first, count, command):
    subprocess.run([OURS[0], "--prove"], check=True)
    seen = dict.fromkeys(SEEN, 0)
    different = 0
    for number in range(first, first + count):
        data = drawn(number)
        words = ["short"] if number % SHORT_EVERY == 0 else []
        ours, theirs = answer(OURS + words, data), answer(command + words, data)
        for what in SEEN:
            seen[what] += what in ours[1]
        if ours != theirs:
            different += 1
            print("schedule %d: %s" % (number, first_difference(ours, theirs)), flush=True)
    print("%d schedules, %d different" % (count, different))
    print(", ".join("%r in %d" % (what.decode().strip(), times) for what, times in seen.items()))
    return 1 if different else 0


if __name__ == "__main__":
    if len(sys.argv) < 4:
        sys.exit(__doc__)
    sys.exit(main(int(sys.argv[1]), int(sys.argv[2]), sys.argv[3:]))
