#!/usr/bin/env python3
"""Compares the kits of ./rampart keygen with those of another program: compare_keygen.py COMMAND WORD ...

The other program is run with the same words behind its own. Orders are at the ends of their ranges, and each height,
one-time parameter set and number of levels stands in one; words that are no order must be refused by both.
"""
import os
import subprocess
import sys

TOP = os.path.dirname(os.path.dirname(os.path.abspath(__file__)))
SEED = bytes(range(32)).hex()
OTHER_SEED = "ff" * 31 + "00"

ORDERS = [
    *((n, r, "plain:%d" % total) for n, r, total in
      ((1, 1, 0), (1, 1, 4294967295), (1, 64, 7), (16, 16, 1000), (16, 64, 100000), (4, 7, 12))),
    *((1, 1, "lms:5:%d" % w) for w in (1, 2, 3, 4)),
    *((1, 1, "lms:6:%d" % w) for w in (1, 2, 3)),
    (2, 3, "lms:5:1"), (1, 2, "lms:5:4"),
    *((1, 1, "hss:%d:5:%d" % (n, w)) for n in (1, 2, 3) for w in (2, 3, 4)),
    (1, 1, "hss:1:5:1"), (1, 1, "hss:1:6:3"), (1, 1, "hss:2:6:3"), (2, 3, "hss:2:5:3"), (1, 2, "hss:3:5:2"),
]

REFUSED = [
    (0, 1, "plain:1"), (17, 17, "plain:1"), (2, 1, "plain:1"), (1, 65, "plain:1"), ("01", 1, "plain:1"), ("+1", 1, "plain:1"),
    (1, 1, "plain:4294967296"), (1, 1, "plain:"), (1, 1, "plain:-1"), (1, 1, "plain:1:2"), (1, 1, "plain"), (1, 1, "lms:4:1"),
    (1, 1, "lms:8:1"), (1, 1, "lms:5:0"), (1, 1, "lms:5:5"), (1, 1, "lms:5"), (1, 1, "lms:5:1:"), (1, 1, "lms:05:1"), (1, 1, ""),
    *((1, 1, "hss:%s" % keys) for keys in
      ("0:5:4", "4:5:4", "1:4:4", "1:8:4", "2:5:0", "2:5:5", "2:5:1", "3:6:1", "3:7:4", "3:7:1", "02:5:4", "2:05:4", "2:5:04", "2:5", "2:5:4:",
       "2:5:4:1", "2:5;4", "2;5:4", "", ":5:4", "-2:5:4")),
    (1, 1, "HSS:2:5:4"), (1, 1, "hss2:5:4"),
]

BAD_SEEDS = ["", SEED[:-1], SEED + "0", SEED[:-1] + "g", SEED[:-1] + "F", " " + SEED[1:]]


def answer(command, words):
    done = subprocess.run([*command, "keygen", *map(str, words)], stdin=subprocess.DEVNULL, capture_output=True, check=False)
    return done.returncode, done.stdout


def main(command):
    subprocess.run([os.path.join(TOP, "rampart"), "--prove"], check=True)
    questions = [(n, r, keys, seed) for n, r, keys in ORDERS for seed in (SEED, OTHER_SEED)]
    questions += [(n, r, keys, SEED) for n, r, keys in REFUSED] + [(1, 1, "plain:1", seed) for seed in BAD_SEEDS]
    questions += [(1, 1, "plain:1"), (1, 1, "plain:1", SEED, "go")]
    different = 0
    refused = 0
    for words in questions:
        ours = answer([os.path.join(TOP, "rampart")], words)
        refused += ours[0] == 2
        if ours != answer(command, words):
            different += 1
            print("different:", *words)
    print(f"{len(questions)} orders, {refused} of them refused, {different} different")
    return different != 0


if __name__ == "__main__":
    if len(sys.argv) < 2:
        sys.exit(__doc__)
    sys.exit(main(sys.argv[1:]))
