#!/usr/bin/env python3
"""Compares how this program reads and makes schedules with how another implementation does.

    python3 tools/compare_schedules.py NUMBER COUNT FOLDER

FOLDER has the other implementation, in Python: schedules.py with `read_schedule`, which reads all versions where it is told
`known="batch"`, `write_schedule`, `generate`, and `ScheduleFault` with the `word` of its fault (docs/FORMATS.md, without spaces) and its
`place`. COUNT schedules are handed to both: the fixed ones (one of each scheme and version with all events, every cut of them and every
byte changed, and those at a limit), and others that are drawn from NUMBER, most of them damaged. Ours are the answers of the program
`interop`. And the schedules of 100 numbers that `gen` writes are compared byte by byte. Each difference is printed, and at the end how
often each answer came. The status is 1 where anything differs.
"""

import pathlib
import random
import subprocess
import sys

from interop import build, compare, word
from schedules import u8, u16, u32

PROGRAM = pathlib.Path(__file__).resolve().parent.parent / "rampart"

PLAIN, LMS, HSS = range(3)
# the version and the scheme of a schedule; the third version has a batch limit
HEADS = [(1, PLAIN), (1, LMS), (2, HSS), (3, PLAIN), (3, LMS), (3, HSS)]
STEPS = 1000000

STATEMENTS = [bytes.fromhex(digits) for digits in (
    "0100000001000161", "0200000000010000", "0300000000000001", "0403ff03ff3f03ff", "0500000001000001", "0600000300",
    "0700000004", "0800000000", "08000002010101050001", "0900000003000000", "0a000001013f0400", "0b00000f03000000",
    "0c000000000200000100000002", "0d0000000003010001020002030003", "0e0001000202000a020005")]


def u64(n):
    return n.to_bytes(8, "big")


# ---- the other implementation


class Theirs:
    def __init__(self, folder):
        sys.path.insert(0, folder)
        import schedules as other

        self.other = other

    def answer(self, data):
        try:
            schedule = self.other.read_schedule(data, known="batch")
        except self.other.ScheduleFault as fault:
            return "%s %d" % (fault.word, fault.place)
        return "schedule " + self.other.write_schedule(schedule).hex()

    def generated(self, number):
        return self.other.write_schedule(self.other.generate(number))


def their_modules(folder):
    """The other implementation has a module of the name of one of ours, which is put aside while it is loaded."""
    ours = sys.modules.pop("schedules")
    theirs = Theirs(folder)
    sys.modules["schedules"] = ours
    return theirs


# ---- schedules


class Drawing:
    """Schedules from a number. Fields lie mostly in their ranges, and often at the ends of these."""

    def __init__(self, number):
        self.draw = random.Random(number)

    def rarely(self, chance=0.004):
        return self.draw.random() < chance

    def number(self, least, most):
        if self.rarely():
            return self.draw.choice([most + 1, 255, self.draw.randint(0, 255)]) & 255
        return self.draw.choice([least, most, self.draw.randint(least, most), self.draw.randint(least, most)])

    def tree(self, levels):
        height = self.number(5, 6 if levels > 2 else 7)
        return u8(height) + u8(self.number(1 if levels < 2 else 2, 4)) + self.draw.randbytes(48)

    def key(self, scheme):
        if scheme == PLAIN:
            return self.draw.randbytes(32) + u32(self.draw.choice([0, 7, 2**32 - 1, self.draw.getrandbits(32)]))
        if scheme == LMS:
            return self.tree(1)
        levels = self.number(1, 3)
        return u8(levels) + self.tree(levels)

    def head(self):
        version, scheme = self.draw.choice(HEADS)
        if self.rarely():
            version = self.draw.randint(0, 9)
        if self.rarely():
            scheme = self.draw.randint(0, 255)
        head = b"RPS%d" % version + u8(scheme)
        if version == 3:
            head += u8(self.number(2, 16))
        count = self.draw.choice([1, 1, 2, 3, 4, 4, 5, 7, 20, 64])
        roster = sorted(self.draw.sample(range(64), count))
        self.corrupt = {p for p in roster if self.draw.random() < 0.25}
        self.correct = [p for p in roster if p not in self.corrupt]
        head += self.draw.randbytes(16) + u8(count)
        for p in roster:
            role = 1 if p in self.corrupt else 0
            head += u8(p) + u8(self.draw.randint(0, 255) if self.rarely(0.001) else role) + self.key(scheme if scheme < 3 else PLAIN)
        genesis = self.draw.sample(roster, self.draw.randint(1, min(16, count)))
        if self.rarely():
            genesis.append(self.draw.choice(genesis))
        return head + u8(len(genesis)) + bytes(genesis)

    # ---- events

    def one_of(self, processes):
        if not processes or self.rarely():
            return self.draw.choice([self.draw.randint(0, 255), self.draw.randint(0, 63)])
        return self.draw.choice(processes)

    def bytes(self, most):
        size = self.draw.choice([0, 1, 2, 9, self.draw.randint(0, 60)])
        if self.rarely():
            size = self.draw.choice([most, most + 1, most - 1]) & 65535
        return u16(size) + self.draw.randbytes(size)

    def count(self):
        return self.draw.choice([0, 1, 3, 1000, 2**16, 2**24, STEPS - 20, STEPS, STEPS + 1] if self.rarely(0.05) else [0, 1, 5, 60, 200])

    def statement(self):
        text = bytearray(self.draw.choice(STATEMENTS))
        if self.rarely(0.03):
            text[self.draw.randrange(len(text))] = self.draw.randint(0, 255)
        return bytes(text)

    def event(self):
        tag = self.draw.choice([1, 1, 2, 2, 3, 4, 4, 5, 5, 6, 7, 8, 9])
        if tag == 5 and not self.corrupt and not self.rarely():
            tag = 4
        if tag not in (4, 5) and not self.correct and not self.rarely():
            tag = 4
        if tag == 1:
            return u8(1) + u8(self.one_of(self.correct)) + self.bytes(65535)
        if tag == 2:
            return u8(2) + u8(self.one_of(self.correct)) + u8(self.number(0, 63)) + self.bytes(61440)
        if tag == 3:
            return u8(3) + u32(self.draw.getrandbits(self.draw.choice([1, 8, 32]))) + u8(self.one_of(self.correct))
        if tag == 4:
            return u8(4) + u32(self.count()) + u64(self.draw.getrandbits(64))
        if tag == 5:
            statement = self.statement()
            return u8(5) + u8(self.one_of(sorted(self.corrupt))) + u64(self.draw.getrandbits(64)) + u16(len(statement)) + statement
        if tag in (6, 7):
            return u8(tag) + u8(self.one_of(self.correct)) + u8(self.number(0, 63))
        return u8(tag) + u8(self.one_of(self.correct))

    def schedule(self):
        return self.head() + b"".join(self.event() for _ in range(self.draw.choice([0, 1, 2, 5, 12, 40])))

    # ---- damage

    def damaged(self, data):
        data = bytearray(data)
        for _ in range(self.draw.choice([1, 1, 1, 2])):
            at = self.draw.randrange(len(data)) if data else 0
            if self.draw.random() < 0.3:
                at = min(at, 90)
            what = self.draw.random()
            if what < 0.5:
                data[at:at + 1] = u8(self.draw.choice([0, 1, 2, 3, 4, 5, 9, 10, 63, 64, 255, self.draw.randint(0, 255)]))
            elif what < 0.65:
                del data[at:at + self.draw.choice([1, 1, 2, 8])]
            elif what < 0.8:
                data[at:at] = self.draw.randbytes(self.draw.choice([1, 2]))
            else:
                del data[at:]
        return bytes(data)

    def text(self):
        data = self.schedule()
        return self.damaged(data) if self.draw.random() < 0.6 else data


# ---- what is fixed


def head(version, scheme, limit, keys, genesis):
    roster = b"".join(u8(p) + u8(role) + key for p, role, key in keys)
    return b"RPS%d" % version + u8(scheme) + limit + bytes(range(16)) + u8(len(keys)) + roster + u8(len(genesis)) + bytes(genesis)


def events():
    every = [u8(1) + u8(0) + u16(2) + b"hi", u8(2) + u8(0) + u8(63) + u16(1) + b"\0", u8(3) + u32(7) + u8(0), u8(4) + u32(5) + u64(3)]
    every += [u8(5) + u8(9) + u64(1) + u16(len(text)) + text for text in STATEMENTS[6:8]]
    every += [u8(tag) + u8(0) + u8(5) for tag in (6, 7)] + [u8(tag) + u8(0) for tag in (8, 9)]
    return b"".join(every)


def fixed():
    tree = u8(5) + u8(4) + bytes(48)
    for version, scheme in HEADS:
        key = (bytes(32) + u32(100000), tree, u8(2) + tree)[scheme]
        front = head(version, scheme, u8(4) if version == 3 else b"", [(0, 0, key), (9, 1, key)], [9, 0])
        whole = front + events()
        yield whole
        yield from (whole[:size] for size in range(len(whole)))
        for at in range(len(whole)):
            if at < 24 or whole[at] or at >= len(front):
                yield from (whole[:at] + u8(byte) + whole[at + 1:] for byte in {whole[at] ^ 1, (whole[at] + 1) & 255, 255})
        for count in (STEPS - 2, STEPS - 1, STEPS, STEPS + 1, 2**32 - 1):
            yield front + u8(9) + u8(0) + u8(4) + u32(count) + u64(0) + u8(9) + u8(0)
            yield front + u8(4) + u32(count)
        yield from (front + u8(1) + u8(0) + u16(size) + bytes(given) for size in (0, 1, 65535) for given in (0, 1, 65534, 65535))
        yield from (front + u8(2) + u8(0) + u8(0) + u16(size) + bytes(size) for size in (61440, 61441, 65535))


# ---- beside each other


def kind(_line, told):
    return told.split(" ")[0]


def compare_generated(theirs, numbers):
    different = 0
    for number in numbers:
        done = subprocess.run([str(PROGRAM), "gen", str(number)], stdin=subprocess.DEVNULL, capture_output=True, check=False)
        if done.returncode or done.stdout != theirs.generated(number):
            different += 1
            print("gen %d: status %d, %d bytes" % (number, done.returncode, len(done.stdout)))
    print("%d numbers, %d different" % (len(numbers), different))
    return different


def main(number, count, folder):
    theirs = their_modules(folder)
    drawing = Drawing(number)
    texts = list(fixed())
    texts += [drawing.text() for _ in range(count - len(texts))]
    build()
    subprocess.run([str(PROGRAM), "--prove"], check=True)
    different = compare([("schedule " + word(text), theirs.answer(text)) for text in texts], kind)
    draw = random.Random(number)
    numbers = [0, 1, 2, 2**31, 2**32 - 1] + [draw.getrandbits(32) for _ in range(95)]
    return 1 if compare_generated(theirs, numbers) + different else 0


if __name__ == "__main__":
    if len(sys.argv) != 4:
        sys.exit(__doc__)
    sys.exit(main(int(sys.argv[1]), int(sys.argv[2]), sys.argv[3]))
