#!/usr/bin/env python3
"""Compares what `rampart chain` answers with what another implementation does.

    python3 tools/compare_chain.py NUMBER COUNT FOLDER [PROGRAM]

FOLDER has the other implementation, in Python: chain.py with `chain_command`, which answers an input with what is written and the
status, and with `advance`, which gives the view that a frame shows, or a fault; kits.py with `make_kit`, `public_part` and `write_kit`;
statements.py with `make_view`; and signatures.py with `Scheme` and `make_signer`. COUNT inputs are drawn from NUMBER on, one of each
number: a kit of 1 to 16 members, with its secrets or without them, some of them damaged; and then proofs, view after view, by all members,
by a quorum or by one less, at ranks below n and above, with Readies of strangers and of other views, second Readies of a member, forged
signatures, other statements, updates that lead to no view, and frames that are cut, changed, of another kind or as long as may be; and
lines of other forms. Compared are all bytes and the status. PROGRAM runs in place of ./rampart. A difference is printed, and at the end how
many inputs there were, how many views they showed and how they ended. The status is 1 where anything differs.
"""

import collections
import copy
import functools
import pathlib
import random
import subprocess
import sys

from schedules import (BUNDLE, KEEP, PLACE, PROOF, READY, RENEW, WANT, add, at_place, at_rank, body, bundle, echo, frame_of_groups, notify,
                       remove, signature, u8, u16, value)

RAMPART = pathlib.Path(__file__).resolve().parent.parent / "rampart"
TREES = (("lms", 5, 3), ("hss", 2, 5, 3))
MOST_BYTES, MOST_SIGNATURE = 61000, 16384


class Theirs:
    def __init__(self, folder):
        sys.path.insert(0, folder)
        import chain
        import kits
        import signatures
        import statements

        self.chain, self.kits, self.signatures, self.statements = chain, kits, signatures, statements
        # a tree is made once, and not for each input that has its secret
        kits.make_signer = functools.lru_cache(None)(signatures.make_signer)

    def answer(self, data):
        written, status = self.chain.chain_command(data, "batch")
        return written, status


class Drawing:
    """An input from a number."""

    def __init__(self, number, theirs):
        self.draw, self.theirs = random.Random(number), theirs
        tree = self.draw.random() < 0.1
        members = self.draw.choice([1, 2, 3, 4, 4] if tree else [1, 2, 3, 4, 4, 5, 7, 10, 13, 16])
        roster = members + self.draw.choice([0, 1, 2])
        plan = self.draw.choice(TREES) if tree else ("plain", 100)
        self.kit = copy.copy(theirs.kits.make_kit(members, roster, plan, bytes([number % 3 if tree else number % 256]) * 32))
        self.kit.genesis = self.draw.sample(range(roster), members)
        self.view = theirs.statements.make_view(0, self.kit.genesis)
        self.scheme = theirs.signatures.Scheme(self.kit.scheme)

    def often(self, part):
        return self.draw.random() < part

    # -- claims

    def signed(self, signer, statement):
        """The signer's claim; of a process without a key with a signature of no worth."""
        secret = self.kit.secrets.get(signer)
        if secret is None:
            return signer, statement, bytes(32)
        if secret[0] == "plain":
            return signer, statement, signature(secret[1], self.kit.group, signer, statement)
        maker = self.theirs.kits.make_signer(secret)
        return signer, statement, maker.sign_at(self.draw.randrange(32), body(self.kit.group, signer, statement))

    def readies(self, signers, rank, what, view):
        return [self.signed(p, at_rank(READY, rank, what, view)) for p in signers]

    def update(self):
        """Mostly one that leads to a view."""
        members = self.view.members
        others = [p for p in self.kit.roster if p not in members]
        likely = [RENEW] + ([remove(self.draw.choice(members))] if len(members) > 1 else [])
        likely += [add(self.draw.choice(others))] * 2 if others and len(members) < 16 else []
        if self.often(0.04):
            likely = [remove(self.draw.randrange(64)), add(self.draw.randrange(64))]
        return self.draw.choice(likely)

    def value(self):
        return value(self.update(), self.draw.choice([0, 1, 1024, self.draw.randint(0, 1024)]))

    def rank(self):
        n = len(self.view.members)
        return self.draw.choice([0, 0, 0, 1, n - 1, min(n, 15), 15])

    def beside(self):
        """Claims that count for nothing, or for another value."""
        number, members = self.view.number, list(self.view.members)
        some = self.draw.sample(members, self.draw.randint(1, len(members)))
        what = self.draw.randrange(8)
        if what == 0:
            return self.readies([self.draw.randrange(64) for _ in range(3)], self.rank(), self.value(), number)
        if what == 1:
            return self.readies(some, self.rank(), self.value(), self.draw.choice([number + 1, max(0, number - 1), 1023]))
        if what == 2:
            forged = self.readies(some, self.rank(), self.value(), number)
            return [(p, said, bytes([sign[0] ^ 1]) + sign[1:]) for p, said, sign in forged]
        if what == 3:
            return [self.signed(p, echo(members[0], 0, b"hi", number)) for p in some]
        if what == 4:
            said = at_place(self.draw.choice([PLACE, KEEP]), 0, [(members[0], 0)] * self.draw.choice([1, 2]), number)
            return [self.signed(p, said) for p in some]
        if what == 5 and self.often(0.2):
            return [self.signed(p, notify(self.update(), number)) for p in some]
        return self.readies(some, self.rank(), self.value(), number)

    def claims(self):
        """Mostly a quorum's Readies of one value, and others beside them."""
        members = list(self.view.members)
        quorum = len(members) - (len(members) - 1) // 3
        count = self.draw.choice([quorum] * 6 + [len(members)] * 3 + [quorum - 1])
        claims = self.readies(sorted(self.draw.sample(members, count)), self.rank(), self.value(), self.view.number)
        while self.often(0.3):
            more = self.beside()
            claims = claims + more if self.often(0.5) else more + claims
        if self.often(0.1):
            self.draw.shuffle(claims)
        return claims

    # -- frames

    def filled(self, claims, size):
        """A frame of these claims and others that count for nothing, of so many bytes."""
        frame, stranger, room = bundle(claims, PROOF), 63, size - len(bundle(claims, PROOF))
        while room > 0:
            take = min(room, 14 + MOST_SIGNATURE) if not 0 < room - 14 - MOST_SIGNATURE < 14 else room - 14
            claims = claims + [(stranger, at_rank(READY, 0, value(RENEW, len(claims)), 0), bytes(max(0, take - 14)))]
            frame = bundle(claims, PROOF)
            room = size - len(frame)
        return frame

    def frame(self):
        claims = self.claims()
        if self.often(0.01):
            return self.filled(claims, MOST_BYTES + self.draw.choice([0, 0, 1]))
        frame = bundle(claims, BUNDLE if self.often(0.02) else PROOF)
        if self.often(0.01) and claims:
            said = claims[0][1]
            return frame_of_groups([(said, [(p, sign) for p, what, sign in reversed(claims) if what == said])], PROOF)
        if self.often(0.02):
            return u8(1) + u8(WANT) + u16(self.draw.choice([0, 1023, 1024])) + u16(0)
        if self.often(0.04):
            return frame[:self.draw.randrange(len(frame))]
        if self.often(0.04):
            at = self.draw.randrange(min(len(frame), self.draw.choice([3, 12, len(frame)])))
            return frame[:at] + self.draw.randbytes(1) + frame[at + 1:]
        return frame + b"\x00" if self.often(0.01) else frame

    def line(self, frame):
        digits = frame.hex()
        other = [digits, "proof", "proof ", "proof  " + digits, "proof " + digits + " ", "proof " + digits + " 00", "Proof " + digits,
                 "proof " + digits.upper() + "AA", "proof " + digits + "0", "proof " + digits + "\r", "proof\t" + digits, "", "go",
                 "proof zz"]
        return (self.draw.choice(other) if self.often(0.04) else "proof " + digits).encode() + b"\n"

    # -- inputs

    def front(self):
        text = self.draw.choice([self.theirs.kits.write_kit, self.theirs.kits.public_part])(self.kit)
        if not self.often(1 / 12 if self.kit.scheme == "plain" else 1 / 3):
            return text + b"go\n"
        lines = text.splitlines(True)
        at = self.draw.randrange(len(lines))
        damage = self.draw.randrange(6)
        if damage == 0:
            return b"".join(lines[:at] + lines[at + 1:]) + b"go\n"
        if damage == 1:
            return b"".join(lines[:at + 1] + lines[at:]) + b"go\n"
        if damage == 2:
            return text[:self.draw.randrange(len(text))]
        if damage == 3:
            place = self.draw.randrange(len(text))
            return text[:place] + self.draw.randbytes(1) + text[place + 1:] + b"go\n"
        if damage == 4:
            # the last digit of a line: of a tree's seed, where the kit has one
            at = next((i for i, line in enumerate(lines) if line.startswith(b"host") and len(line) > 90), at)
            lines[at] = lines[at][:-2] + (b"1" if lines[at][-2:-1] == b"0" else b"0") + b"\n"
            return b"".join(lines) + b"go\n"
        return text + self.draw.choice([b"", b"go", b"gone\n", b"go \n"])

    def input(self):
        """The kit, and proofs until one shows no view, and some lines more."""
        text, shown = self.front(), 0
        for _ in range(self.draw.choice([0, 1, 2, 3, 5, 8])):
            frame = self.frame()
            text += self.line(frame)
            view, fault = self.theirs.chain.advance(self.view, self.scheme, self.kit.roster, self.kit.group, frame, True)
            if fault is None:
                self.view, shown = view, shown + 1
            elif self.often(0.7):
                break
        return text[:-1] if self.often(0.02) else text


def ours(program, data):
    done = subprocess.run([program, "chain"], input=data, stdout=subprocess.PIPE, check=False)
    return done.stdout, done.returncode


def end_of(answer):
    """Its status, and the word of a fault."""
    last = answer[0].splitlines()[-1].split() if answer[0] else []
    return "%d%s" % (answer[1], " " + last[2].decode() if last[:1] == [b"stop"] else "")


def main(first, count, folder, program=RAMPART):
    if program == RAMPART:
        subprocess.run([str(RAMPART), "--prove"], check=True)
    theirs = Theirs(folder)
    different, views, ends = 0, 0, collections.Counter()
    for number in range(int(first), int(first) + int(count)):
        data = Drawing(number, theirs).input()
        wanted, got = theirs.answer(data), ours(program, data)
        views += max(0, wanted[0].count(b"view ") - 1)
        ends[end_of(wanted)] += 1
        if got != wanted:
            different += 1
            print("input %d: %r, not %r" % (number, got, wanted))
    print("%d inputs, %d views shown, %d different" % (int(count), views, different))
    print(", ".join("%s: %d" % item for item in sorted(ends.items())))
    return 1 if different else 0


if __name__ == "__main__":
    if len(sys.argv) not in (4, 5):
        raise SystemExit(__doc__)
    sys.exit(main(*sys.argv[1:]))
