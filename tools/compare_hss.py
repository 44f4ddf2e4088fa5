#!/usr/bin/env python3
"""Compares this repository's keys of trees in levels, their signatures and verification with another implementation's.

    python3 tools/compare_hss.py FOLDER

FOLDER holds `signatures.py`, the other implementation or a few lines in front of it, with two names:

    HssKey(levels, height, ots, id, seed)    a key by its levels (1 to 3) and its trees' typecodes (5 to 7, 1 to 4), I and SEED;
                                             `public()` gives its public key, and `sign_at(number, body)` the signature of that
                                             number, with lower trees and randomizers made as docs/FORMATS.md says
    hss_verify(key, body, sig)               whether the signature is valid

Each line is asked of the program `interop`, which is built first, and what it answers is compared with what the other
implementation gives: signatures at the first and last number of a key and at each change of a tree in two levels, the same
signatures verified, and hostile keys, bodies and signatures. Each difference is printed; the status is 1 where anything
differs.
"""

import importlib
import random
import sys

from interop import build, compare, compare_stops, word

ID = bytes(range(16))
SEED = bytes(range(32, 64))
BODY = b"one message"


def u32(n):
    return n.to_bytes(4, "big")


# ---- what is asked, each line with the answer that the other implementation gives

def verify_line(other, key, body, sig):
    told = "true" if other.hss_verify(key, body, sig) else "false"
    return "verify hss %s %s %s" % (word(key), word(body), word(sig)), told


def signed_and_verified(other, levels, height, ots, numbers):
    key = other.HssKey(levels, height, ots, ID, SEED)
    public = key.public().hex()
    for number in numbers:
        body = BODY[: number % 12]
        sig = key.sign_at(number, body)
        yield "hss %d %d %d %s %s %d %s" % (levels, height, ots, ID.hex(), SEED.hex(), number, word(body)), "%s %s" % (public, sig.hex())
        yield verify_line(other, key.public(), body, sig)


def changes():
    """The numbers of two levels of height 5 where a tree ends and the next begins."""
    for tree in range(32):
        yield from (32 * tree, 32 * tree + 31)


def replaced(data, at, piece):
    return data[:at] + piece + data[at + len(piece):]


def flipped(data, bit):
    return replaced(data, bit // 8, bytes([data[bit // 8] ^ (128 >> bit % 8)]))


# Where the fields of a signature in two levels of height 5 with W8 stand: Nspk, then of each level q, one-time typecode and
# typecode, and between them the lower tree's key with its two typecodes.
COUNT, UPPER, LOWER_KEY, LOWER = 0, 4, 1296, 1352


def hostile(key, body, sig):
    """Keys, bodies and signatures near a valid one."""
    for n in range(len(key)):
        yield key[:n], body, sig
    for n in range(len(sig)):
        yield key, body, sig[:n]
    yield key + b"\0", body, sig
    yield key, body + b"\0", sig
    yield key, body, sig + b"\0"
    yield key, body, sig + sig[LOWER:]
    for bit in range(8 * len(key)):
        yield flipped(key, bit), body, sig
    for bit in range(0, 8 * len(sig), 61):
        yield key, body, flipped(sig, bit)
    for count in [*range(10), 255, 256, 2**24, 2**31, 2**32 - 1]:
        yield key, body, replaced(sig, COUNT, u32(count))
        yield replaced(key, 0, u32(count)), body, sig
    for levels in range(10):
        yield replaced(key, 0, u32(levels)), body, replaced(sig, COUNT, u32((levels - 1) % 2**32))
    for code in range(12):
        for at in (4, 8):
            yield replaced(key, at, u32(code)), body, sig
        for at in (UPPER, UPPER + 4, UPPER + 1128, LOWER_KEY, LOWER_KEY + 4, LOWER, LOWER + 4, LOWER + 1128):
            yield key, body, replaced(sig, at, u32(code))


def other_trees(other):
    """Signatures whose parts are of different keys."""
    one = other.HssKey(2, 5, 4, ID, SEED)
    two = other.HssKey(2, 5, 4, SEED[:16], SEED)
    single = other.HssKey(1, 5, 4, ID, SEED)
    first, second, alone = one.sign_at(5, BODY), two.sign_at(5, BODY), single.sign_at(5, BODY)
    for cut in (4, LOWER_KEY, LOWER_KEY + 24, LOWER):
        yield one.public(), BODY, first[:cut] + second[cut:]
        yield one.public(), BODY, second[:cut] + first[cut:]
    yield one.public(), BODY, alone
    yield single.public(), BODY, first
    yield one.public(), BODY, one.sign_at(37, BODY)[:LOWER] + first[LOWER:]


def damaged(other, count):
    """Keys and signatures of one to three levels with some bytes changed, drawn from one number."""
    draw = random.Random(20)
    keys = [other.HssKey(levels, 5, 3, ID, SEED) for levels in (1, 2, 3)]
    signed = [(key.public(), key.sign_at(7, BODY)) for key in keys]
    for _ in range(count):
        key, sig = (bytearray(part) for part in draw.choice(signed))
        for _ in range(draw.randint(1, 3)):
            part = key if draw.random() < 0.3 else sig
            part[draw.randrange(len(part))] = draw.choice((0, 1, 2, 5, 255, draw.randrange(256)))
        yield bytes(key), BODY, bytes(sig)


def all_lines(other):
    yield from signed_and_verified(other, 2, 5, 4, [*changes(), 1, 33, 500])
    yield from signed_and_verified(other, 2, 5, 3, (0, 1023))
    yield from signed_and_verified(other, 2, 5, 2, (0, 31, 32, 1023))
    yield from signed_and_verified(other, 1, 5, 1, (0, 31))
    yield from signed_and_verified(other, 3, 5, 3, (0, 31, 32, 1023, 1024, 1056, 32767))
    key = other.HssKey(2, 5, 4, ID, SEED)
    for parts in (hostile(key.public(), BODY, key.sign_at(3, BODY)), other_trees(other), damaged(other, 1000)):
        for part in parts:
            yield verify_line(other, *part)


# ---- lines that are no question, in the place of a second line

def no_questions():
    of = "hss %s %s %s %s %s %s %s"
    names, seed = ID.hex(), SEED.hex()
    yield from ("hss", "verify hss", "verify hss - -", "verify hss - - - -", "Verify hss - - -", "verify hs - - -", "verify hss 0 - -")
    for levels in ("0", "4", "01", "", "-1"):
        yield of % (levels, 5, 4, names, seed, 0, "-")
    for levels, height, ots in ((2, 4, 4), (2, 8, 4), (3, 7, 4), (2, 5, 0), (2, 5, 5), (2, 5, 1), (3, 6, 1)):
        yield of % (levels, height, ots, names, seed, 0, "-")
    for number in ("1024", "-1", "00", "4294967295", "4294967296", "x", ""):
        yield of % (2, 5, 4, names, seed, number, "-")
    yield of % (1, 5, 4, names, seed, 32, "-")
    yield of % (2, 5, 4, names[2:], seed, 0, "-")
    yield of % (2, 5, 4, names, seed + "00", 0, "-")
    yield of % (2, 5, 4, names, seed, 0, "0")


# ---- running it

def main(folder):
    sys.path.insert(0, folder)
    other = importlib.import_module("signatures")
    build()
    stops = [line + "\n" for line in no_questions()]
    return 1 if compare(list(all_lines(other))) + compare_stops("verify hss - - -\n", stops) else 0


if __name__ == "__main__":
    if len(sys.argv) != 2:
        sys.exit(__doc__)
    sys.exit(main(sys.argv[1]))
