#!/usr/bin/env python3
"""Compares how this program reads journals and datagrams with how another implementation does.

    python3 tools/compare_journals.py NUMBER JOURNALS DATAGRAMS FOLDER

FOLDER has the other implementation, in Python: journals.py with `Journal`, which reads what stands on a disk of devices.py, and
`JournalFault`; frames.py with `unseal`, which answers the sender and the frame or the word of the fault. JOURNALS journals and DATAGRAMS
datagrams are handed to both: the fixed ones (journals of both magics with each event, and a datagram, every cut of them and every byte
changed), and others that are drawn from NUMBER, most of them damaged at any byte. Ours are the answers of the program `interop`. Each
difference is printed, and at the end how often each answer came. The status is 1 where anything differs.
"""

import hashlib
import hmac
import random
import sys

from interop import build, compare, word

GROUP = bytes(range(16))
ME, SENDER = 2, 1
MAGICS = [b"RPJ1", b"RPJ2"]
LIMITS = {b"RPJ1": 1, b"RPJ2": 16}


def number(value, width):
    return value.to_bytes(width, "big")


def text(data):
    return number(len(data), 2) + data


# ---- the other implementation


class Theirs:
    def __init__(self, folder):
        sys.path.insert(0, folder)
        import devices
        import frames
        import journals

        self.devices, self.frames, self.journals = devices, frames, journals

    def journal(self, data):
        """An empty file is none yet: a run begins a journal there. The header may be that of any group, processes and digest."""
        if not data:
            return "notajournal"
        mask = int.from_bytes(data[20:28], "big")
        hosted = [process for process in range(64) if mask >> process & 1]
        disk = self.devices.MemDisk(data)
        try:
            journal = self.journals.Journal(disk, MAGICS[1], data[4:20], hosted, data[28:60], MAGICS[:1])
            words = ["journal", str(LIMITS[journal.magic])]
            for _place, entry in journal.read():
                words += entry_words(*entry)
        except self.journals.JournalFault as fault:
            return " ".join(str(part) for part in fault.args)
        return " ".join(words)

    def datagram(self, key, data):
        opened = self.frames.unseal(GROUP, ME, {SENDER: key}, data)
        if isinstance(opened, str):
            return opened
        return "opened %d %s" % (opened[0], word(opened[1]))


def entry_words(process, event, spent, signatures):
    told = [part if isinstance(part, str) else word(part) if isinstance(part, bytes) else str(part) for part in event]
    return ["entry", str(process)] + told + [str(int(spent))] + [word(signature) for signature in signatures]


# ---- what is drawn


def record(entry, gate=1):
    return number(gate, 1) + number(len(entry), 4) + entry


def journal(magic, whose, entries, behind):
    return magic + whose + b"".join(record(entry) for entry in entries) + behind


def datagram(key, group, sender, to, frame):
    tagged = b"RPD1" + group + bytes([sender, to]) + frame
    return tagged + hmac.new(key, tagged, hashlib.sha256).digest()


class Drawing:
    """Journals and datagrams from a number. Fields lie mostly in their ranges, and often at the ends of these."""

    def __init__(self, seed):
        self.draw = random.Random(seed)

    def rarely(self, chance=0.003):
        return self.draw.random() < chance

    def process(self):
        return self.draw.choice([64, 255]) if self.rarely() else self.draw.choice([0, 63, self.draw.randint(0, 63)])

    def bytes(self):
        return self.draw.randbytes(self.draw.choice([0, 1, 2, 9, self.draw.randint(0, 60)]))

    def event(self):
        tag = self.draw.choice([1, 2, 6, 7, 8, 9])
        if self.rarely():
            tag = self.draw.randint(0, 255)
        parts = {1: lambda: text(self.bytes()), 2: lambda: number(self.process(), 1) + text(self.bytes())}
        of_process = {6: lambda: number(self.process(), 1), 7: lambda: number(self.process(), 1)}
        return number(tag, 1) + {**parts, **of_process}.get(tag, lambda: b"")()

    def signature(self):
        if self.rarely():
            size = self.draw.choice([16384, 16385])
            return number(size, 2) + self.draw.randbytes(size)
        return text(self.bytes())

    def entry(self):
        spent = self.draw.choice([2, 255]) if self.rarely() else self.draw.randint(0, 1)
        count = self.draw.choice([0, 0, 1, 1, 2, 5])
        signatures = b"".join(self.signature() for _ in range(count))
        trailing = b"\0" if self.rarely() else b""
        return number(self.process(), 1) + self.event() + number(spent, 1) + number(count, 2) + signatures + trailing

    def journal(self):
        entries = [self.entry() for _ in range(self.draw.choice([0, 1, 1, 2, 4, 9]))]
        gate = b"\0" if self.draw.random() < 0.7 else number(self.draw.choice([1, 2, 255]), 1)
        unread = self.draw.choice([b"", b"", self.bytes(), number(len(self.bytes()), 4) + self.entry() + b"\0"])
        data = journal(self.draw.choice(MAGICS), self.draw.randbytes(56), entries, gate + unread)
        return self.damaged(data, self.draw.randrange(len(data))) if self.draw.random() < 0.6 else data

    def damaged(self, data, at):
        """Damaged at this byte: it is another one, it is missing, there is one more, or the bytes end there."""
        what = self.draw.random()
        if what < 0.6:
            byte = self.draw.choice([0, 1, 2, 9, 63, 64, 255, data[at] ^ 1, self.draw.randint(0, 255)])
            return data[:at] + number(byte, 1) + data[at + 1:]
        if what < 0.75:
            return data[:at] + data[at + 1:]
        if what < 0.9:
            return data[:at] + self.draw.randbytes(1) + data[at:]
        return data[:at]

    def datagram(self):
        """A key, and a datagram that is mostly for the receiver, of its group, and tagged with the key."""
        key = self.draw.randbytes(32)
        tagging = self.draw.randbytes(32) if self.rarely(0.1) else key
        group = self.draw.randbytes(16) if self.rarely(0.05) else GROUP
        sender = self.draw.choice([0, 2, 63, 64, 255]) if self.rarely(0.15) else SENDER
        to = self.draw.choice([0, 1, 3, 66]) if self.rarely(0.1) else ME
        data = datagram(tagging, group, sender, to, self.bytes())
        return key, self.damaged(data, self.draw.randrange(len(data))) if self.draw.random() < 0.4 else data


# ---- what is fixed


def changed(data):
    """Every cut, and every byte changed."""
    yield from (data[:size] for size in range(len(data) + 1))
    for at in range(len(data)):
        yield from (data[:at] + number(byte, 1) + data[at + 1:] for byte in sorted({data[at] ^ 1, (data[at] + 1) & 255, 0, 255}))


def fixed_journals():
    events = [b"\x01" + text(b"hi"), b"\x01" + text(b""), b"\x02\x3f" + text(b"\0"), b"\x06\x3f", b"\x07\x00", b"\x08", b"\x09"]
    entries = [number(place, 1) + event + b"\0" + number(0, 2) for place, event in enumerate(events)]
    entries.append(b"\x3f\x09\x01" + number(2, 2) + text(b"") + text(b"\xaa\xbb"))
    for magic in MAGICS:
        yield from changed(journal(magic, bytes(56), entries[:1] + entries[-1:], b"\0"))
        yield journal(magic, bytes(56), entries, b"\0\x01")
        yield journal(magic, bytes(range(56)), [], b"\0" + record(entries[0]) + b"\0")
        for size in (16383, 16384, 16385):
            yield journal(magic, bytes(56), [b"\0\x09\0" + number(1, 2) + text(bytes(size))], b"\0")
        for size in (0, 65535):
            yield journal(magic, bytes(56), [b"\0\x01" + text(bytes(size)) + b"\0" + number(0, 2)], b"\0")
        yield journal(magic, bytes(56), [], b"\x01" + b"\xff" * 4 + bytes(9))


def fixed_datagrams():
    key = bytes(range(100, 132))
    yield from ((key, data) for data in changed(datagram(key, GROUP, SENDER, ME, b"hi")))
    yield key, datagram(key, GROUP, SENDER, ME, b"")
    yield key, datagram(key, GROUP, SENDER, ME, bytes(61000))
    yield from ((key, datagram(key, GROUP, sender, to, b"hi")) for sender in range(256) for to in (1, 2))


# ---- beside each other


def kind(line, told):
    return line.split(" ")[0] + " " + told.split(" ")[0]


def asked(theirs, seed, journals, datagrams):
    drawing = Drawing(seed)
    texts = list(fixed_journals())
    texts += [drawing.journal() for _ in range(journals - len(texts))]
    pairs = list(fixed_datagrams())
    pairs += [drawing.datagram() for _ in range(datagrams - len(pairs))]
    lines = [("journal " + word(data), theirs.journal(data)) for data in texts]
    return lines + [("datagram %s %s" % (key.hex(), word(data)), theirs.datagram(key, data)) for key, data in pairs]


def main(seed, journals, datagrams, folder):
    lines = asked(Theirs(folder), seed, journals, datagrams)
    build()
    return 1 if compare(lines, kind) else 0


if __name__ == "__main__":
    if len(sys.argv) != 5:
        sys.exit(__doc__)
    sys.exit(main(int(sys.argv[1]), int(sys.argv[2]), int(sys.argv[3]), sys.argv[4]))
