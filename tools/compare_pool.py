#!/usr/bin/env python3
"""Compares what a pool hears with what another implementation hears.

    python3 tools/compare_pool.py NUMBER COUNT FOLDER

FOLDER has the other implementation, in Python: frames.py with `read_frame`, statements.py with `make_view`, `remove`, `slot_of` and
`FrameFault`, signatures.py with `Scheme`, and process.py with `Process`, whose `_hear` gives a claim its verdict and whose pool has
`count`, `certified`, `backers`, `certificate`, `notified`, `placed_length` and `fixed`. COUNT sequences of claims are handed to both, as a
frame each: they are drawn from NUMBER, of 4 to 16 members of whom some lie, at and beyond the ends of the window, with batches, with
signatures that are not valid, and of views and processes beside the group's; and there are a few that are no view or no frame of claims.
Compared are the verdict on each claim, and after the last one for each claim how many members say its statement, the certificate of its
slot and who is in it, or whether the update is notified; and the placed length, the fixed length and the removed rank. Ours are the
answers of the program `interop`. Each difference is printed, and at the end how often each word came. The status is 1 where anything
differs.
"""

import collections
import random
import sys

from interop import build, compare, compare_stops, word
from schedules import (ACK, KEEP, ORDER, PLACE, READY, RENEW, SUGGEST, WANT, add, at_place, at_rank, bundle, echo, end, frame_of_groups,
                       init, last, notify, remove, signature, u8, u16, value)

GROUP = bytes(16)
KEYED = 48
WINDOW = 32
MOST_GROUPS, MOST_BYTES = 255, 61000


def key_of(process):
    return u8(process) * 32


def line_of(view, members, counts, frame):
    return "pool %d %s %s %s" % (view, word(bytes(members)), word(bytes(counts)), word(frame))


# ---- the other implementation


class Theirs:
    def __init__(self, folder):
        sys.path.insert(0, folder)
        import frames
        import process
        import signatures
        import statements

        self.frames, self.process, self.statements = frames, process, statements
        self.scheme = signatures.Scheme("plain")
        self.roster = {p: key_of(p) for p in range(KEYED)}

    def hearer(self, view, counts):
        """A process that has delivered so many messages of each member, message l at place l."""
        rules = self.process.Rules(batches=True)
        hearer = self.process.Process(GROUP, self.roster, view, 0, None, self.scheme, rules)
        hearer.delivered_places = max(counts)
        hearer.delivered_of = dict(zip(view.members, counts))
        return hearer

    def answer(self, number, members, counts, frame):
        view = self.statements.make_view(number, members)
        if view is None or max(members) > 63 or len(counts) != len(members):
            return "noview"
        try:
            _, claims = self.frames.read_frame(frame, True)
        except self.statements.FrameFault as fault:
            return fault.word
        return " ".join(self.heard(self.hearer(view, counts), claims or []))

    def heard(self, hearer, claims):
        outcome = self.process.Outcome()
        words = ["pool"] + [hearer._hear(claim, outcome) for claim in claims]
        pool = hearer.pool
        removed = max(rank for rank in range(pool.view.n) if hearer.query_backed(rank))
        words += ["placed", str(pool.placed_length()), "fixed", str(pool.fixed), "removed", str(removed)]
        for claim in claims:
            words += ["count", str(pool.count(claim.statement))] + self.slot_words(pool, claim.statement)
        return words

    def slot_words(self, pool, statement):
        kinds = self.statements
        kind = statement[0]
        if kind == kinds.NOTIFY:
            return ["notified" if pool.notified(statement[2]) else "few"]
        if kind not in (kinds.ECHO, kinds.PLACE, kinds.KEEP, kinds.ACK, kinds.READY):
            return []
        slot = self.statements.slot_of(statement)
        found = pool.certified.get((kind, slot))
        if found is None:
            return ["none"]
        signers = sorted(pool.backers[found])
        assert [claim.signer for claim in pool.certificate(kind, slot)] == signers[:pool.view.q]
        return ["same" if found == statement else "other"] + [str(signer) for signer in signers]


# ---- what is drawn


class Drawing:
    """A sequence of claims from a number."""

    def __init__(self, seed):
        self.draw = random.Random(seed)
        size = 4 + seed % 13
        top = self.draw.choice([size, KEYED, KEYED, 64])
        self.members = self.draw.sample(range(top), size)
        self.view = self.draw.choice([0, 0, 1, 5, 1022, 1023, self.draw.randint(0, 1023)])
        self.counts = [self.draw.choice([0, 0, 1, 31, 32, 224, self.draw.randint(0, 255)]) for _ in self.members]
        if self.draw.random() < 0.3:
            self.counts = [0] * size
        self.delivered = max(self.counts)
        self.liars = self.draw.sample(self.members, self.draw.randint(0, (size - 1) // 3 + (self.draw.random() < 0.3)))
        self.silent = self.draw.choice([0, 0.1, 0.4])

    # -- slots and contents

    def member(self):
        if self.draw.random() < 0.02:
            return self.draw.randint(0, 63)
        return self.draw.choice(self.members)

    def ahead_of(self, have):
        """A number in its range, mostly within the window, often at its end."""
        ahead = [0, 0, 1, 2, WINDOW - 2, WINDOW - 1, WINDOW - 1, WINDOW, WINDOW + 1, self.draw.randint(0, 40)]
        return min(1023, have + self.draw.choice(ahead))

    def place(self):
        near = [0, 0, 1, 1, 2, 3, self.draw.randint(0, 12)]
        return self.draw.choice(near) if self.draw.random() < 0.7 else self.ahead_of(self.delivered)

    def rank(self):
        return self.draw.choice([0, 0, 1, 2, len(self.members) - 1, min(15, len(self.members)), self.draw.randint(0, 15)])

    def update(self):
        return self.draw.choice([RENEW, remove(self.members[0]), remove(self.members[0]), remove(self.members[1]), remove(self.member()),
                                 add(self.draw.randint(0, 63))])

    def value(self):
        return value(self.update(), self.draw.choice([0, 1, 2, 1024, self.draw.randint(0, 1024)]))

    def batch(self):
        size = self.draw.choice([1, 1, 2, 3, 16, self.draw.randint(1, 16)])
        return [self.message() for _ in range(size)]

    def message(self):
        sender = self.draw.choice(self.members) if self.draw.random() < 0.998 else self.draw.randint(0, 63)
        return sender, self.draw.choice([0, 1, 1023, self.draw.randint(0, 1023)])

    def contents(self, make):
        """Three contents of one slot, of which the second and the third may be equal."""
        return [make() for _ in range(3)]

    def payloads(self):
        return self.contents(lambda: self.draw.randbytes(self.draw.choice([0, 1, 2, self.draw.randint(0, 40)])))

    def slot(self, view):
        """Three statements on one slot."""
        what = self.draw.choice(["init", "echo", "echo", "echo", ORDER, PLACE, PLACE, PLACE, KEEP, KEEP, "notify", "notify", "end", "last",
                                 SUGGEST, ACK, ACK, READY])
        if what == "init":
            number = self.ahead_of(self.draw.choice(self.counts))
            return [init(number, payload, view) for payload in self.payloads()]
        if what == "echo":
            sender = self.member()
            have = self.counts[self.members.index(sender)] if sender in self.members else 0
            number = self.ahead_of(have)
            return [echo(sender, number, payload, view) for payload in self.payloads()]
        if what in (ORDER, PLACE, KEEP):
            return self.at_place(what, self.place(), view)
        if what == "notify":
            return [notify(self.update(), view)] * 2 + [notify(self.update(), view)]
        if what == "end":
            return [end(self.draw.choice([0, 1, 1024, self.draw.randint(0, 1024)]), view) for _ in range(3)]
        rank = self.rank()
        if what == "last":
            return [last(rank, self.reported(rank), view) for _ in range(3)]
        return [at_rank(what, rank, content, view) for content in self.contents(self.value)]

    def at_place(self, kind, place, view):
        return [at_place(kind, place, batch, view) for batch in self.contents(self.batch)]

    def reported(self, rank):
        if rank == 0 or self.draw.random() < 0.5:
            return None
        return self.draw.randrange(rank), self.value()

    # -- claims

    def claim(self, signer, statement):
        """Its signature is mostly valid."""
        key, group = key_of(signer), GROUP
        what = self.draw.random()
        if what < 0.02:
            return signer, statement, self.draw.choice([b"", bytes(32), bytes(33)])
        if what < 0.03:
            key = key_of((signer + 1) % 64)
        if what > 0.99:
            group = bytes(15) + b"\x01"
        return signer, statement, signature(key, group, signer, statement)

    def said(self, signer, contents):
        """What the signer says of a slot, in order: once, or nothing; a liar something else, or both."""
        if self.draw.random() < self.silent:
            return []
        if signer not in self.liars:
            says = [contents[0]]
        else:
            says = self.draw.choice([[contents[1]], [contents[2]], [contents[0], contents[1]], [contents[1], contents[0]], contents])
        if self.draw.random() < 0.04:
            says = says + [self.draw.choice(contents)]
        return says

    def topic(self):
        """Claims on one slot."""
        near = [max(0, self.view - 1), min(1023, self.view + 1), self.draw.randint(0, 1023)]
        return self.claims_on(self.slot(self.view if self.draw.random() < 0.96 else self.draw.choice(near)))

    def first_places(self):
        """Claims on each of the first places, in any order."""
        many = self.draw.choice([0, 0, 1, 2, 5, 9])
        return [self.claims_on(self.at_place(PLACE, place, self.view)) for place in self.draw.sample(range(many), many)]

    def claims_on(self, contents):
        signers = self.draw.sample(self.members, len(self.members))
        if self.draw.random() < 0.05:
            signers.insert(self.draw.randrange(len(signers)), self.draw.randint(0, 63))
        if self.draw.random() < 0.5:
            signers.sort()
        return [self.claim(signer, statement) for signer in signers for statement in self.said(signer, contents)]

    def sequence(self):
        """Claims on several slots, one slot after the other or mixed, as many as a frame takes."""
        topics = self.first_places() + [self.topic() for _ in range(self.draw.choice([1, 3, 12, 30, 60]))]
        claims = [claim for topic in topics for claim in topic]
        if self.draw.random() < 0.4:
            self.draw.shuffle(claims)
        return claims

    def question(self):
        claims = self.sequence() or [self.claim(self.members[0], end(0, self.view))]
        while groups_of(claims) > MOST_GROUPS or len(bundle(claims)) > MOST_BYTES:
            del claims[len(claims) * 9 // 10:]
        return self.view, self.members, self.counts, bundle(claims)


def groups_of(claims):
    """How many groups of a statement they have, as `bundle` packs them."""
    count, before = 0, None
    for signer, statement, _ in claims:
        if before is None or before[0] != statement or before[1] >= signer or before[2] == 16:
            count, before = count + 1, (statement, signer, 1)
        else:
            before = (statement, signer, before[2] + 1)
    return count


# ---- what is fixed


def fixed():
    """No view, no frame of claims, and no claims."""
    claim = frame_of_groups([(end(0), [(0, signature(key_of(0), GROUP, 0, end(0)))])])
    for members in ([], [0, 0], [0, 64], list(range(17)), [255], [0], list(range(16))):
        yield 0, members, [0] * len(members), claim
    yield 0, [0, 1], [0], claim
    yield 0, [0], [0, 1], claim
    yield 0, [0], [], claim
    far, none = (frame_of_groups([(statement, [(0, b"")])]) for statement in (end(1025), b"\0"))
    for frame in (b"", b"\x02", claim[:-1], claim + b"\0", far, none,
                  u8(1) + u8(WANT) + u16(1023) + u16(1024), u8(1) + u8(WANT) + u16(1024) + u16(0)):
        yield 0, [0, 1], [3, 0], frame


NO_QUESTIONS = ["pool\n", "pool 0 00 00\n", "pool 1024 00 00 -\n", "pool 00 00 00 -\n", "pool 0 0 00 -\n", "pool 0 00 0g -\n",
                "pool 0 00 00 0\n", "pool 0 00 00 - -\n", "pool 0 00 00 \n", "pool - 00 00 -\n"]


# ---- beside each other


def told_of(answer):
    """What the answer tells: its verdicts, and what stands behind each count."""
    words = answer.split(" ")
    if words[0] != "pool":
        return words
    end_at = words.index("placed")
    return words[1:end_at] + [w for w in words[end_at + 6:] if not w.isdigit()]


def main(number, count, folder):
    theirs = Theirs(folder)
    drawn = [Drawing(number * 1000003 + n).question() for n in range(count)]
    questions = list(fixed()) + drawn
    asked = [(line_of(*question), theirs.answer(*question)) for question in questions]
    build()
    different = compare(asked) + compare_stops("verify lms - 00 ff\n", NO_QUESTIONS)
    seen = collections.Counter(told for _, answer in asked for told in told_of(answer))
    print(", ".join("%s %d" % item for item in sorted(seen.items())))
    return 1 if different else 0


if __name__ == "__main__":
    if len(sys.argv) != 4:
        sys.exit(__doc__)
    sys.exit(main(int(sys.argv[1]), int(sys.argv[2]), sys.argv[3]))
