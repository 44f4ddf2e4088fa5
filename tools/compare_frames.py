#!/usr/bin/env python3
"""Compares how this program reads frames and statements with how another implementation does.

    python3 tools/compare_frames.py NUMBER COUNT FOLDER

FOLDER has the other implementation, in Python: frames.py with `read_frame`, statements.py with `read_statement` and
`spell`, whose faults have the words of docs/FORMATS.md, and which read the kinds 12 to 14 where they are told
`batches=True`. COUNT frames and statements are handed to both: the fixed ones (one of each kind with every cut and every
bit turned, batches of each count from 0 to 18, hostile ones, and those at a limit), and others that are drawn from
NUMBER or made of drawn ones by small changes. Ours are the answers of the program `interop`. Each difference is
printed, and at the end how often each answer came. The status is 1 where anything differs.
"""

import random
import sys

from interop import build, compare, word
from schedules import BUNDLE, PROOF, WANT, frame_of_groups, u8, u16

REMOVE, ADD, RENEW = 1, 2, 3
# the last three of several messages
INIT, ECHO, ORDER, PLACE, KEEP, NOTIFY, END, LAST, SUGGEST, ACK, READY, ORDERS, PLACES, KEEPS = KINDS = range(1, 15)
IN_PROOF = [ECHO, PLACE, KEEP, READY, PLACES, KEEPS]


# ---- the other implementation


def their_frame(frames, statements, data):
    try:
        head, claims = frames.read_frame(data, batches=True)
    except statements.FrameFault as fault:
        return fault.word
    if head[0] == WANT:
        return "want %d %d" % (head[1], head[2])
    words = ["bundle" if head[0] == BUNDLE else "proof"]
    for claim in claims:
        words += [str(claim.signer), word(statements.spell(claim.statement)), word(claim.signature)]
    return " ".join(words)


def their_statement(statements, data):
    try:
        return "ok " + word(statements.spell(statements.read_statement(data, batches=True)))
    except statements.FrameFault as fault:
        return fault.word


# ---- what is drawn


class Drawing:
    """Frames and statements from a number. Numbers lie mostly in their ranges, and often at the ends of these."""

    def __init__(self, number):
        self.draw = random.Random(number)

    def number(self, last, most):
        """In range up to `last`, or rarely up to `most`."""
        if self.draw.random() < 0.02:
            return self.draw.choice([last + 1, most, self.draw.randint(0, most)])
        return self.draw.choice([0, 1, last - 1, last, self.draw.randint(0, last), self.draw.randint(0, last)])

    def update(self):
        tag = self.draw.choice([REMOVE, ADD, RENEW])
        if self.draw.random() < 0.02:
            tag = self.draw.randint(0, 255)
        process = self.number(63, 255) if tag != RENEW or self.draw.random() < 0.02 else 0
        return u8(tag) + u8(process)

    def value(self):
        return self.update() + u16(self.number(1024, 65535))

    def payload(self):
        size = self.draw.choice([0, 1, 2, self.draw.randint(0, 40)])
        if self.draw.random() < 0.01:
            size = self.draw.choice([1023, 1024, 1025])
        told = size + self.draw.choice([1, -1]) if self.draw.random() < 0.01 else size
        return u16(max(told, 0)) + self.draw.randbytes(size)

    def message(self):
        return u8(self.number(63, 255)) + u16(self.number(1023, 65535))

    def batch(self):
        count = self.draw.choice([2, 2, 3, 15, 16, self.draw.randint(2, 16)])
        if self.draw.random() < 0.05:
            count = self.draw.choice([0, 1, 17, 18])
        told = count + self.draw.choice([1, -1, 2]) if self.draw.random() < 0.03 else count
        return u8(max(told, 0)) + b"".join(self.message() for _ in range(count))

    def report(self, rank):
        if self.draw.random() < 0.4:
            return u8(0)
        below = self.draw.randint(0, rank - 1) if rank and self.draw.random() < 0.95 else self.number(15, 255)
        tag = 1 if self.draw.random() < 0.98 else self.draw.randint(0, 255)
        return u8(tag) + u8(below) + self.value()

    def statement(self, kind):
        out = u8(kind) + u16(self.number(1023, 65535))
        if kind == INIT:
            return out + u16(self.number(1023, 65535)) + self.payload()
        if kind == ECHO:
            return out + self.message() + self.payload()
        if kind in (ORDER, PLACE, KEEP):
            return out + u16(self.number(1023, 65535)) + self.message()
        if kind in (ORDERS, PLACES, KEEPS):
            return out + u16(self.number(1023, 65535)) + self.batch()
        if kind == NOTIFY:
            return out + self.update()
        if kind == END:
            return out + u16(self.number(1024, 65535))
        rank = self.number(15, 255)
        return out + u8(rank) + (self.report(rank) if kind == LAST else self.value())

    def signatures(self):
        count = self.draw.choice([1, 1, 2, 3, 16])
        if self.draw.random() < 0.02:
            count = self.draw.choice([0, 17])
        signers = sorted(self.draw.sample(range(64), count))
        if self.draw.random() < 0.03:
            signers = [self.draw.randint(0, 255) for _ in signers]
        return [(p, self.draw.randbytes(self.draw.choice([0, 1, 2, 32]))) for p in signers]

    def group(self, kind):
        kinds = IN_PROOF if kind == PROOF and self.draw.random() < 0.97 else KINDS
        return self.statement(self.draw.choice(list(kinds))), self.signatures()

    def frame(self):
        kind = self.draw.choice([BUNDLE, BUNDLE, PROOF, PROOF, WANT])
        if kind == WANT:
            return u8(1) + u8(WANT) + u16(self.number(1023, 65535)) + u16(self.number(1024, 65535))
        groups = [self.group(kind) for _ in range(self.draw.choice([1, 1, 2, 3, 5]))]
        if self.draw.random() < 0.1:
            groups.append(groups[-1])
        return frame_of_groups(groups, kind)

    def changed(self, data):
        """The bytes after a few small changes."""
        out = bytearray(data)
        for _ in range(self.draw.choice([1, 1, 1, 2, 3])):
            at = self.draw.randrange(len(out) + 1)
            what = self.draw.randrange(5)
            if what == 0:
                del out[at:at + self.draw.choice([1, 2, 5])]
            elif what == 1:
                out[at:at] = self.draw.randbytes(self.draw.choice([1, 2, 5]))
            elif what == 2:
                del out[at:]
            elif at < len(out):
                out[at] = out[at] ^ (1 << self.draw.randrange(8)) if what == 3 else self.draw.choice([0, 1, 3, 64, 255])
        return bytes(out)

    def question(self):
        verb, data = ("frame", self.frame()) if self.draw.random() < 0.6 else ("statement", self.statement(self.draw.choice(KINDS)))
        return verb, self.changed(data) if self.draw.random() < 0.4 else data


# ---- what is fixed


def placed(kind, count):
    """An Order, a Place or a Keep of so many messages, the first and the last process's in turn."""
    return u8(kind) + u16(1) + u16(2) + u8(count) + b"".join(u8(63 * (at % 2)) + u16(at) for at in range(count))


STATEMENTS = [
    u8(INIT) + u16(0) + u16(0) + u16(2) + b"hi",
    u8(ECHO) + u16(1) + u8(3) + u16(2) + u16(2) + b"hi",
    u8(ORDER) + u16(1) + u16(1023) + u8(2) + u16(3),
    u8(PLACE) + u16(1) + u16(2) + u8(3) + u16(4),
    u8(KEEP) + u16(258) + u16(772) + u8(5) + u16(1023),
    u8(NOTIFY) + u16(9) + u8(RENEW) + u8(0),
    u8(END) + u16(9) + u16(1024),
    u8(LAST) + u16(9) + u8(15) + u8(0),
    u8(LAST) + u16(9) + u8(15) + u8(1) + u8(14) + u8(ADD) + u8(63) + u16(1024),
    u8(SUGGEST) + u16(9) + u8(15) + u8(REMOVE) + u8(7) + u16(1024),
    u8(ACK) + u16(9) + u8(0) + u8(RENEW) + u8(0) + u16(0),
    u8(READY) + u16(1023) + u8(1) + u8(ADD) + u8(0) + u16(5),
    placed(ORDERS, 2),
    placed(PLACES, 3),
    placed(KEEPS, 16),
]

FRAMES = [
    frame_of_groups([(STATEMENTS[0], [(3, b"\xaa\xbb")]), (STATEMENTS[8], [(0, b""), (63, b"\x01")])], BUNDLE),
    frame_of_groups([(STATEMENTS[11], [(1, b"\xaa"), (2, b"")]), (STATEMENTS[1], [(0, b"\xcc\xdd")])], PROOF),
    u8(1) + u8(WANT) + u16(1023) + u16(1024),
]

# no frame, and one statement that is none, is misplaced or is out of range; the last is a Want of view 1,024
HOSTILE = [bytes.fromhex(h) for h in (
    "", "02", "0104", "010100", "010101000001030000", "01020100070100000000000001030000", "0101010005060000030101030000",
    "0101010005070000040101030000", "010101000a0800000101010300000001030000", "010304000000")]


def of_bytes(size):
    """A Bundle of so many bytes: three long signatures, and a fourth that fills it up."""
    begun = [(p, bytes(16384)) for p in range(3)]
    rest = size - len(frame_of_groups([(STATEMENTS[6], begun + [(3, b"")])]))
    return frame_of_groups([(STATEMENTS[6], begun + [(3, bytes(rest))])])


def at_limits():
    end = STATEMENTS[6]
    yield from (of_bytes(size) for size in (60999, 61000, 61001, 61440))
    yield from (frame_of_groups([(end, [(0, bytes(size))])]) for size in (16384, 16385))
    yield from (frame_of_groups([(end, [(p, b"") for p in range(size)])]) for size in (0, 16, 17))
    yield from (frame_of_groups([(end, [(0, b"")])] * size, count=size % 256) for size in (0, 1, 255, 256))
    yield from (frame_of_groups([(end, [(p, b"")])]) for p in (63, 64, 255))
    yield from (u8(1) + u8(WANT) + u16(x) + u16(k) for x in (1023, 1024) for k in (1024, 1025))


def each_way(data):
    """The bytes, each cut of them, each with a bit turned, and with one byte more."""
    yield data
    yield data + b"\0"
    yield from (data[:size] for size in range(len(data)))
    for at in range(8 * len(data)):
        turned = bytearray(data)
        turned[at // 8] ^= 1 << at % 8
        yield bytes(turned)


def of_each_count():
    for kind in (ORDERS, PLACES, KEEPS):
        for count in range(19):
            statement = placed(kind, count)
            yield "statement", statement
            yield from (("frame", frame_of_groups([(statement, [(7, b"\x01")])], carrier)) for carrier in (BUNDLE, PROOF))


def fixed():
    yield from of_each_count()
    for statement in STATEMENTS:
        yield from (("statement", data) for data in each_way(statement))
        for kind in (BUNDLE, PROOF):
            yield "frame", frame_of_groups([(statement, [(7, b"\x01")])], kind)
    for frame in FRAMES:
        yield from (("frame", data) for data in each_way(frame))
    yield from (("frame", data) for data in HOSTILE)
    yield from (("frame", data) for data in at_limits())


# ---- beside each other


def kind(line, told):
    return line.split(" ")[0] + " " + told.split(" ")[0]


def main(number, count, folder):
    sys.path.insert(0, folder)
    import frames
    import statements
    drawing = Drawing(number)
    questions = list(fixed())
    questions += [drawing.question() for _ in range(count - len(questions))]
    asked = []
    for verb, data in questions:
        told = their_frame(frames, statements, data) if verb == "frame" else their_statement(statements, data)
        asked.append(("%s %s" % (verb, word(data)), told))
    build()
    return 1 if compare(asked, kind) else 0


if __name__ == "__main__":
    if len(sys.argv) != 4:
        sys.exit(__doc__)
    sys.exit(main(int(sys.argv[1]), int(sys.argv[2]), sys.argv[3]))
