#!/usr/bin/env python3
"""Compares this repository's LMS keys, signatures and verification with another implementation's.

    python3 tools/compare_lms.py FOLDER

FOLDER holds `signatures.py`, the other implementation or a few lines in front of it, with two names:

    LmsKey(height, ots, id, seed)    a tree by its typecodes (5 to 7, 1 to 4), I and SEED; `public()` gives its public key,
                                     and `sign_at(leaf, body)` the leaf's signature, whose C is made from SEED as
                                     docs/FORMATS.md says
    lms_verify(key, body, sig)       whether the signature is valid

Each line is asked of the program `interop`, which is built first, and what it answers is compared with what the other
implementation gives. The lines are signatures of trees of all heights, the same signatures verified, and hostile keys,
bodies and signatures. Each difference is printed; the status is 1 where anything differs.
"""

import importlib
import pathlib
import pickle
import sys
import tempfile

from interop import build, compare, compare_stops, word

ID = bytes(range(16))
SEED = bytes(range(32, 64))
BODY = b"one message"
OTS_TYPES = (1, 2, 3, 4)
HEIGHTS = {5: 5, 6: 10, 7: 15}
LIMIT = 1_000_000


def u32(n):
    return n.to_bytes(4, "big")


# ---- what is asked, each line with the answer that the other implementation gives

def verify_line(other, key, body, sig):
    told = "true" if other.lms_verify(key, body, sig) else "false"
    return "verify lms %s %s %s" % (word(key), word(body), word(sig)), told


def sign_line(tree, leaf, body):
    told = "%s %s" % (tree.public().hex(), tree.sign_at(leaf, body).hex())
    return "lms %d %d %s %s %d %s" % (tree.height_code, tree.ots, ID.hex(), SEED.hex(), leaf, word(body)), told


def signed_and_verified(other, height, leaves):
    for ots in OTS_TYPES:
        tree = other.LmsKey(height, ots, ID, SEED)
        for leaf in leaves:
            yield sign_line(tree, leaf, BODY[: leaf % 12])
            yield verify_line(other, tree.public(), BODY, tree.sign_at(leaf, BODY))


def tallest(other):
    """The tallest tree that is built. It takes a minute or more, so it is kept for the next run."""
    kept = pathlib.Path(tempfile.gettempdir()) / "compare_lms_h15_w4.pickle"
    if not kept.exists():
        tree = other.LmsKey(7, 3, ID, SEED)
        answers = tree.public(), {leaf: tree.sign_at(leaf, BODY) for leaf in (0, 1, 20_000, 32_767)}
        kept.write_bytes(pickle.dumps(answers))
    return pickle.loads(kept.read_bytes())


def tall_lines(other):
    key, signatures = tallest(other)
    for sig in signatures.values():
        yield verify_line(other, key, BODY, sig)
    told = "%s %s" % (key.hex(), signatures[20_000].hex())
    yield "lms 7 3 %s %s 20000 %s" % (ID.hex(), SEED.hex(), BODY.hex()), told


def replaced(data, at, piece):
    return data[:at] + piece + data[at + len(piece):]


def flipped(data, bit):
    return replaced(data, bit // 8, bytes([data[bit // 8] ^ (128 >> bit % 8)]))


def hostile(key, body, sig, ots_length):
    """Keys, bodies and signatures near a valid one."""
    for n in range(len(key)):
        yield key[:n], body, sig
    for n in range(len(body)):
        yield key, body[:n], sig
    for n in range(len(sig)):
        yield key, body, sig[:n]
    yield key + b"\0", body, sig
    yield key, body + b"\0", sig
    yield key, body, sig + b"\0"
    for bit in range(0, 8 * len(key), 9):
        yield flipped(key, bit), body, sig
    for bit in range(0, 8 * len(body), 9):
        yield key, flipped(body, bit), sig
    for bit in range(0, 8 * len(sig), 173):
        yield key, body, flipped(sig, bit)
    for code in range(17):
        yield replaced(key, 0, u32(code)), body, sig
        yield replaced(key, 4, u32(code)), body, sig
        yield key, body, replaced(sig, 4, u32(code))
        yield key, body, replaced(sig, 4 + ots_length, u32(code))
    for leaf in (31, 32, 2**31, 2**32 - 1):
        yield key, body, replaced(sig, 0, u32(leaf))


def hostile_lines(other):
    tree = other.LmsKey(5, 4, ID, SEED)
    for key, body, sig in hostile(tree.public(), BODY, tree.sign_at(3, BODY), 1124):
        yield verify_line(other, key, body, sig)


def all_lines(other):
    yield from signed_and_verified(other, 5, range(32))
    yield from signed_and_verified(other, 6, (0, 512, 1023))
    yield from tall_lines(other)
    yield from hostile_lines(other)


# ---- lines that are no question, in the place of a second line

def no_questions():
    of = "lms %s %s %s %s %s %s"
    names, seed = ID.hex(), SEED.hex()
    yield from ("", " ", "verify", "verify lms", "verify lms - -", "verify lms - - - -", "verify lms  - -", "verify lms - - ")
    yield from ("verify xmss - - -", "Verify lms - - -", "verify lms - - - ", " verify lms - - -", "verify lms 0 - -")
    yield from ("verify lms 0A - -", "verify lms 0g - -", "verify lms -- - -", "verify lms - - -\r", "frames -", "lms")
    for height in ("4", "8", "05", "+5", "5.", "", "-"):
        yield of % (height, 4, names, seed, 0, "-")
    for ots in ("0", "5", "04", ""):
        yield of % (5, ots, names, seed, 0, "-")
    for leaf in ("32", "-1", "00", "4294967296", "x", ""):
        yield of % (5, 4, names, seed, leaf, "-")
    yield of % (5, 4, names[2:], seed, 0, "-")
    yield of % (5, 4, names + "00", seed, 0, "-")
    yield of % (5, 4, names, seed[2:], 0, "-")
    yield of % (5, 4, names, seed + "00", 0, "-")
    yield of % (5, 4, names, seed, 0, "0")
    yield "verify lms - - " + "00" * (LIMIT // 2)


# ---- running it

def main(folder):
    sys.path.insert(0, folder)
    other = importlib.import_module("signatures")
    build()
    stops = [line + "\n" for line in no_questions()] + ["verify lms - - -"]
    return 1 if compare(list(all_lines(other))) + compare_stops("verify lms - - -\n", stops) else 0


if __name__ == "__main__":
    if len(sys.argv) != 2:
        sys.exit(__doc__)
    sys.exit(main(sys.argv[1]))
