#!/usr/bin/env python3
"""Compares what a replicated store answers, what bytes say as its records, and what `rampart ask` answers with another implementation.

    python3 tools/compare_store.py NUMBER COUNT ASKS FOLDER [PROGRAM]

FOLDER has the other implementation, in Python: store.py with `Store`, whose `apply` gives the answer to a payload and whose `state()` is
spelled; `store_of_state`, `read_reply` and `read_state`, which give None of other bytes; `derived_signer`, `sign_with_leaf`, `reply_middle`
and `ask_command`, which answers a payload and an input with what is written and the status; kits.py with `make_kit`, `public_part`,
`write_kit` and `make_signer`; and rampart_oracle.py with `rampart`, which answers words.

From NUMBER on are drawn COUNT lists of requests, of keys of few letters, so that they meet; each command comes, and payloads that are cut,
go on or have a length that does not fit. Then COUNT records, replies and states by turns, most of them damaged at any byte. Ours are the
answers of the program `interop` to `apply`, `reply` and `state`. And ASKS inputs of `ask` with its payload: a kit, reply keys, a view and
replies of members and strangers, of other requests, places and answers, forged ones, cut and changed lines. Compared are all bytes and
the status of `./rampart ask HEX`, or of PROGRAM. Each difference is printed, and at the end how often each answer came. The status is 1
where anything differs.
"""

import collections
import copy
import functools
import pathlib
import random
import subprocess
import sys

from interop import build, compare, compare_stops, word

RAMPART = pathlib.Path(__file__).resolve().parent.parent / "rampart"
TREES = (("lms", 5, 3), ("hss", 2, 5, 3))
MOST_KEYS, MOST_KEY, MOST_VALUE, MOST_ANSWER, MOST_PAYLOAD, MOST_SIGNATURE = 4096, 64, 512, 513, 1024, 16384


def number(value, width):
    return value.to_bytes(width, "big")


def text(data, width=2):
    return number(len(data), width) + data


# ---- the other implementation


class Theirs:
    def __init__(self, folder):
        sys.path.insert(0, folder)
        import kits
        import rampart_oracle
        import signatures
        import store

        self.kits, self.program, self.store = kits, rampart_oracle, store
        # a tree is made once, and not for each input that has its secret
        kits.make_signer = functools.lru_cache(None)(signatures.make_signer)
        self.reply_signer = functools.lru_cache(None)(lambda secret: store.derived_signer(secret, b"RPR1"))

    def apply(self, payloads):
        store = self.store.Store()
        answers = [word(store.apply(payload)) for payload in payloads]
        return " ".join(["applied", *answers, "state", word(store.state())])

    def reply(self, data):
        found = self.store.read_reply(data)
        return "noreply" if found is None else " ".join(["reply", *map(str, found[:4]), *map(word, found[4:])])

    def state(self, data):
        found = self.store.read_state(data)
        if found is None:
            return "nostate"
        again = self.store.store_of_state(found[2]).state()
        return " ".join(["state", *map(str, found[:2]), word(again), word(found[3])])

    def ask(self, word_of_payload, data):
        return self.program.rampart(["ask", word_of_payload], data, "batch")


# ---- requests


class Requests:
    """Lists of requests from a number."""

    def __init__(self, draw):
        self.draw = draw

    def key(self):
        if self.draw.random() < 0.03:
            return self.draw.choice([b"", b"k" * MOST_KEY, b"k" * (MOST_KEY + 1), b"\0", b"\xff"])
        return bytes(self.draw.choice(b"abc") for _ in range(self.draw.choice([1, 1, 1, 2, 2, 3])))

    def value(self):
        if self.draw.random() < 0.03:
            return self.draw.randbytes(self.draw.choice([MOST_VALUE, MOST_VALUE + 1]))
        return bytes(self.draw.choice(b"xy") for _ in range(self.draw.choice([0, 1, 1, 1, 2])))

    def command(self):
        what = self.draw.choice([1, 1, 1, 2, 2, 3, 4, 4, 4])
        values = {1: 1, 4: 2}.get(what, 0)
        return number(what, 1) + text(self.key(), 1) + b"".join(text(self.value()) for _ in range(values))

    def payload(self):
        data = self.draw.randbytes(8) + self.command()
        damage = self.draw.random()
        if damage < 0.04:
            return data[:self.draw.randrange(len(data))]
        if damage < 0.08:
            return data + self.draw.randbytes(self.draw.choice([1, 1, 2, 9]))
        if damage < 0.12:
            at = self.draw.randrange(len(data))
            return data[:at] + number(self.draw.choice([0, 1, 4, 5, 64, 65, 255, data[at] ^ 1]), 1) + data[at + 1:]
        return data

    def payloads(self):
        return [self.payload() for _ in range(self.draw.choice([1, 2, 5, 12, 30]))]


def a_full_store():
    """Keys up to the most, one more, and what is asked of a full store."""
    set_ = lambda n, value=b"v": bytes(8) + b"\x01" + text(number(n, 2), 1) + text(value)
    of = lambda what, n, more=b"": bytes(8) + number(what, 1) + text(number(n, 2), 1) + more
    filled = [set_(n) for n in range(MOST_KEYS)]
    return filled + [set_(MOST_KEYS), set_(0, b"w"), of(2, 0), of(4, 1, text(b"v") + text(b"z")), of(4, 1, text(b"v") + text(b"y")),
                     of(3, 17), set_(MOST_KEYS), set_(17), of(2, 17)]


# ---- records


class Records:
    """Replies and states from a number. Fields lie mostly in their ranges, and often at the ends of these."""

    def __init__(self, draw, theirs):
        self.draw, self.theirs = draw, theirs

    def rarely(self, chance=0.02):
        return self.draw.random() < chance

    def one_of(self, last, width):
        past = [last + 1, 256 ** width - 1]
        return number(self.draw.choice(past) if self.rarely() else self.draw.choice([0, 1, last, self.draw.randint(0, last)]), width)

    def bytes(self, most):
        if self.rarely():
            return self.draw.randbytes(self.draw.choice([most, most + 1]))
        return self.draw.randbytes(self.draw.choice([0, 1, 2, 9, self.draw.randint(0, 60)]))

    def reply(self):
        fields = self.one_of(63, 1) + self.one_of(1023, 2) + self.one_of(1023, 2) + self.one_of(15, 1)
        return fields + text(self.bytes(MOST_PAYLOAD)) + text(self.bytes(MOST_ANSWER)) + text(self.bytes(MOST_SIGNATURE))

    def state_of_store(self):
        if self.rarely(0.2):
            # pairs in any order, and keys that come twice
            requests = Requests(self.draw)
            pairs = [text(requests.key(), 1) + text(requests.value()) for _ in range(self.draw.choice([1, 2, 3, 5]))]
            return number(len(pairs) + self.draw.choice([0, 0, 0, 1]), 2) + b"".join(pairs)
        store = self.theirs.store.Store()
        for payload in Requests(self.draw).payloads():
            store.apply(payload)
        return store.state()

    def state(self):
        state = self.state_of_store()
        length = len(state) + (self.draw.choice([-1, 1]) if self.rarely() else 0)
        return self.one_of(63, 1) + self.one_of(1023, 2) + number(length, 4) + state + text(self.bytes(MOST_SIGNATURE))

    def damaged(self, data):
        """Damaged at any byte: it is another one, it is missing, there is one more, or the bytes end there."""
        at, what = self.draw.randrange(len(data)), self.draw.random()
        if what < 0.6:
            byte = self.draw.choice([0, 1, 2, 63, 64, 255, data[at] ^ 1, self.draw.randint(0, 255)])
            return data[:at] + number(byte, 1) + data[at + 1:]
        if what < 0.75:
            return data[:at] + data[at + 1:]
        return data[:at] + self.draw.randbytes(1) + data[at:] if what < 0.9 else data[:at]

    def record(self, kind):
        data = getattr(self, kind)()
        return self.damaged(data) if self.draw.random() < 0.7 else data


def most_pairs(count):
    """A state of so many pairs."""
    return number(count, 2) + b"".join(text(number(n, 2), 1) + text(b"") for n in range(count))


def fixed_states():
    for count in (0, 1, MOST_KEYS, MOST_KEYS + 1):
        state = most_pairs(count)
        yield b"\x3f\x03\xff" + text(state, 4) + text(b"s")
        yield b"\x40\x03\xff" + text(state, 4) + text(b"s")
    yield b"\x00\x00\x00" + b"\xff\xff\xff\xff" + most_pairs(1)


# ---- what is asked


class Asking:
    """A payload's word, and an input of `ask`, from a number."""

    def __init__(self, seed, theirs):
        self.draw, self.theirs = random.Random(seed), theirs
        tree = self.often(0.1)
        members = self.draw.choice([1, 2, 3, 4] if tree else [1, 2, 3, 4, 4, 5, 7, 10, 13, 16])
        roster = members + self.draw.choice([0, 1, 2])
        plan = self.draw.choice(TREES) if tree else ("plain", 100)
        self.kit = copy.copy(theirs.kits.make_kit(members, roster, plan, number(seed % 3 if tree else seed % 256, 1) * 32))
        self.view = self.draw.choice([0, 0, 0, 1, 1023])
        self.members = self.draw.sample(range(roster), members)
        self.payload = self.draw.randbytes(self.draw.choice([1, 9, 10, MOST_PAYLOAD]))

    def often(self, part):
        return self.draw.random() < part

    def signer(self, process):
        return self.theirs.reply_signer(self.kit.secrets[process])

    # -- replies

    def content(self):
        """Few of them, so that they meet."""
        return self.draw.choice([0, 1, 2, 1023]), self.draw.choice([0, 0, 1, 15]), self.draw.choice([b"\0", b"\x02", b"\x01a", b"\x01b", b""])

    def reply(self, process, content, payload=None, view=None):
        place, position, answer = content
        payload, view = self.payload if payload is None else payload, self.view if view is None else view
        middle = self.theirs.store.reply_middle(process, view, place, position, payload, answer)
        key = self.signer(process) if process in self.kit.secrets else self.signer(0)
        signature = self.theirs.store.sign_with_leaf(key, self.draw.randrange(32), b"RPR1" + self.kit.group + middle)
        if self.often(0.03):
            signature = bytes([signature[0] ^ 1]) + signature[1:]
        return middle + text(signature)

    def reply_line(self, process, content):
        record = self.reply(process, content)
        if self.often(0.05):
            record = self.reply(process, content, payload=self.payload + b"\0")
        if self.often(0.05):
            record = self.reply(process, content, view=self.draw.choice([0, 2, 1023]))
        if self.often(0.005):
            record = self.draw.choice([record[:-1], record + b"\0", record[:self.draw.randrange(len(record))], b""])
        if self.often(0.005):
            process = (process + 1) % 64
        return "reply %d %s" % (process, record.hex())

    def replies(self):
        contents = [self.content() for _ in range(self.draw.choice([1, 2, 3]))]
        faulty = (len(self.members) - 1) // 3
        lines = []
        for content in contents:
            count = self.draw.choice([faulty, faulty + 1, faulty + 1, len(self.members), self.draw.randint(0, len(self.members))])
            lines += [self.reply_line(p, content) for p in self.draw.sample(self.members, min(count, len(self.members)))]
        while self.often(0.4):
            lines.append(self.reply_line(self.draw.choice([*self.kit.roster, 40, 63]), self.draw.choice(contents)))
        if lines and self.often(0.3):
            lines += self.draw.sample(lines, min(2, len(lines)))
        self.draw.shuffle(lines)
        if lines and self.often(0.01):
            lines = (lines * 1025)[:self.draw.choice([1024, 1025])]
        return lines

    # -- lines before them

    def key_lines(self):
        told = [p for p in self.kit.roster if not self.often(0.1)]
        lines = ["replykey %d %s" % (p, self.signer(p).public().hex()) for p in told]
        if lines and self.often(0.05):
            at = self.draw.randrange(len(lines))
            line = lines[at]
            lines[at:at + 1] = self.draw.choice([[line, line], [line + "0"], [line[:-1]], [line + " "], [line.replace(" ", "  ", 1)],
                                                 ["replykey 63 " + line.split()[2]], [line.upper()], ["statekey" + line[8:]]])
        if len(lines) > 1 and self.often(0.02):
            lines[0], lines[1] = lines[1], lines[0]
        return lines

    def view_line(self):
        members = " ".join(map(str, self.members))
        line = "view %d : %s" % (self.view, members)
        other = ["view 1024 : " + members, "view %d :" % self.view, "view %d : " % self.view, line + " " + str(self.members[0]), line + " 64",
                 "view 01 : " + members, "view %d: %s" % (self.view, members), line + " ", "view  0 : " + members,
                 "view 0 : " + " ".join(map(str, range(17))), "view 0 : 63", "go", ""]
        return self.draw.choice(other) if self.often(0.05) else line

    # -- inputs

    def broken(self, lines):
        """With a line left out, doubled, changed or too long, or without the last line feed."""
        at, damage = self.draw.randrange(len(lines)), self.draw.randrange(6)
        if damage == 0:
            del lines[at]
        elif damage == 1:
            lines.insert(at, lines[at])
        elif damage == 2:
            place = self.draw.randrange(len(lines[at]) + 1)
            lines[at] = lines[at][:place] + self.draw.choice(" 0ag\r\0") + lines[at][place:]
        elif damage == 3:
            lines[at] += " " * (self.draw.choice([70000, 70001]) - len(lines[at]))
        elif damage == 4:
            lines.insert(at, self.draw.choice(["", " ", "reply", "reply 0", "replykey 0", "view", "reply 0 -", "reply 64 00", "answer none"]))
        return lines, damage == 5

    def question(self):
        front = self.draw.choice([self.theirs.kits.write_kit, self.theirs.kits.public_part])(self.kit).decode()
        lines = [*front.splitlines(), "go", *self.key_lines(), self.view_line(), *self.replies()]
        cut = False
        if self.often(0.15):
            lines, cut = self.broken(lines)
        data = "".join(line + "\n" for line in lines).encode("latin-1")
        return self.payload_word(), data[:-1] if cut else data

    def payload_word(self):
        digits = self.payload.hex()
        other = ["", "-", digits[:-1], digits.upper() + "AA", digits + "g0", "00" * (MOST_PAYLOAD + 1), " " + digits]
        return self.draw.choice(other) if self.often(0.02) else digits


def ours(program, word_of_payload, data):
    done = subprocess.run([program, "ask", word_of_payload], input=data, stdout=subprocess.PIPE, check=False)
    return done.stdout, done.returncode


def end_of(answer):
    """Its status, and what it says in a word."""
    words = answer[0].split()
    return " ".join([str(answer[1]), *(part.decode() for part in words[:1] + words[2:3] if answer[1] == 7)]) if answer[1] else (
        "no answer" if words[1:2] == [b"none"] else "an answer")


def compare_asks(theirs, first, count, program):
    """How many inputs of `ask` are answered otherwise."""
    different, ends = 0, collections.Counter()
    for seed in range(first, first + count):
        payload, data = Asking(seed, theirs).question()
        wanted, got = theirs.ask(payload, data), ours(program, payload, data)
        ends[end_of(wanted)] += 1
        if got != wanted:
            different += 1
            print("input %d: %r, not %r" % (seed, got, wanted))
    print("%d inputs of ask, %d different" % (count, different))
    print(", ".join("%s: %d" % item for item in sorted(ends.items())))
    return different


# ---- beside each other


NO_QUESTIONS = ["apply\n", "apply \n", "apply 0\n", "apply 00 \n", "apply 00  00\n", "apply 00 0g\n", "apply - 0\n", "reply\n", "reply 0\n",
                "reply 00 00\n", "reply 00 \n", "state\n", "state 0\n", "state 00 00\n", "states 00\n", "stat 00\n", "replies 00\n"]


def asked(theirs, first, count):
    lists = [[b""], [b"", b""], [bytes(8)], a_full_store()]
    lists += [Requests(random.Random(first * 1000003 + n)).payloads() for n in range(count - len(lists))]
    lines = [("apply " + " ".join(map(word, payloads)), theirs.apply(payloads)) for payloads in lists]
    records = [("state", data) for data in fixed_states()]
    while len(records) < count:
        kind = ("reply", "state")[len(records) % 2]
        records.append((kind, Records(random.Random(first * 1000003 + len(records)), theirs).record(kind)))
    return lines + [(kind + " " + word(data), getattr(theirs, kind)(data)) for kind, data in records]


def kind(line, answer):
    return line.split(" ")[0] + ": " + answer.split(" ")[0]


def main(first, count, asks, folder, program=RAMPART):
    if program == RAMPART and asks:
        subprocess.run([str(RAMPART), "--prove"], check=True)
    theirs = Theirs(folder)
    different = 0
    if count:
        lines = asked(theirs, first, count)
        commands = collections.Counter(part[:2] for line, told in lines if line.startswith("apply") for part in told.split()[1:-2])
        build()
        different = compare(lines, kind) + compare_stops("verify lms - 00 ff\n", NO_QUESTIONS)
        print("answers to requests: " + ", ".join("%s %d" % item for item in sorted(commands.items())))
    return 1 if different + (compare_asks(theirs, first, asks, program) if asks else 0) else 0


if __name__ == "__main__":
    if len(sys.argv) not in (5, 6):
        raise SystemExit(__doc__)
    sys.exit(main(*map(int, sys.argv[1:4]), *sys.argv[4:]))
