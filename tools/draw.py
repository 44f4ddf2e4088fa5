#!/usr/bin/env python3
"""Draws a schedule from a number, to compare two programs on it.

    python3 tools/draw.py NUMBER > FILE

The same number gives the same schedule. Draws aim at what is rare: corrupt members that lie where it hurts, suspected managers and
deputies, joins, views that end while messages are on their way, lost and repeated frames, keys that are soon spent, processes outside the
group, frames that are no frames, and inputs that are no schedules. A third of the schedules has hostile frames, a fourth has batches,
and one in ten is broken afterwards.
"""

import random
import sys

from schedules import (ACK, BUNDLE, EVERYONE, KEEP, ORDER, PLACE, PROOF, READY, RENEW, SUGGEST, WANT, Process, Schedule, add, at_place,
                       at_rank, bundle, drain, echo, end, frame_of_groups, hand_on, init, join, last, lie, notify, raw, remove, renew,
                       submit, suspect, tick, u8, u16, value)

EDGES = [0, 0, 0, 0, 1, 2, 31, 32, 33, 1023, 1024, 65535]


class Drawing:
    """A schedule that grows, with a guess at how many frames were sent."""

    def __init__(self, number):
        self.draw = random.Random(number)
        self.hostile = number % 3 == 0
        draw = self.draw
        count = draw.choice([1, 2, 3, 4, 4, 4, 4, 5, 7, 7, draw.randint(8, 20), draw.choice([16, 17, 18])])
        numbers = list(range(count)) if draw.random() < 0.8 else sorted(draw.sample(range(64), count))
        size = min(16, count if draw.random() < 0.7 else draw.randint(max(1, count - 2), count))
        genesis = numbers[:size] if draw.random() < 0.7 else draw.sample(numbers, size)
        limit = (size - 1) // 3 + (draw.random() < 0.25)
        corrupt = set(draw.sample(genesis, min(draw.randint(0, limit), count - 1, size)))
        processes = [Process(p, draw.randbytes(32), draw.choice([100000] * 60 + [0, 3, 9, 17]), p in corrupt) for p in numbers]
        batch = draw.choice([2, 3, 16]) if draw.random() < 0.25 else 1
        self.schedule = Schedule(draw.randbytes(16), processes, genesis, batch)
        self.numbers = numbers
        self.genesis = genesis
        self.corrupt = sorted(corrupt)
        self.correct = [p for p in numbers if p not in corrupt]
        self.quiet = draw.random() < 0.4
        self.view = 0
        self.frames = 0

    def add(self, event):
        self.schedule.events.append(event)

    # ---- what correct processes are told

    def submit(self):
        draw = self.draw
        p = draw.choice(self.correct)
        times = draw.choice([1, 1, 1, 1, 1, 2, 5] + ([40] if draw.random() < 0.2 else []) + ([258] if draw.random() < 0.03 else []))
        for _ in range(times):
            self.add(submit(p, self.payload()))
        if draw.random() < 0.02:
            self.add(submit(p, draw.randbytes(draw.choice([1025, 65535]))))
        self.frames += len(self.genesis) > 1 and p in self.genesis

    def hand_on(self):
        if self.frames:
            frame = self.draw.randrange((self.frames + 1) // 2)
            self.add(hand_on(frame, self.draw.choice(self.correct)))

    def mask(self):
        draw = self.draw
        return EVERYONE if draw.random() < 0.6 else sum(1 << p for p in self.correct if draw.random() < 0.7)

    def drain(self):
        self.add(drain(self.draw.choice([1, 3, 6, 10, 30, 200]), self.mask()))

    def lose(self):
        self.add(drain(self.draw.randint(1, 6), 0))

    def tick(self):
        self.add(tick(self.draw.choice(self.correct)))

    def change(self):
        """Some are told of one update."""
        draw = self.draw
        some = draw.sample(self.correct, min(len(self.correct), draw.choice([1, 2, 2, 3])))
        what = draw.choice(["suspect", "suspect", "suspect", "renew", "renew", "join"])
        other = draw.choice([self.genesis[0], self.genesis[0], draw.choice(self.numbers)])
        newcomer = draw.choice(self.numbers + [63])
        for p in some:
            self.add({"suspect": suspect(p, other), "renew": renew(p), "join": join(p, newcomer)}[what])
        self.view += draw.random() < 0.3

    # ---- what hostile processes do

    def payload(self):
        draw = self.draw
        if draw.random() < 0.02:
            return draw.randbytes(draw.choice([1023, 1024]))
        return bytes(draw.choices(b"abc", k=draw.randint(0, 2)))

    def update(self):
        draw = self.draw
        return draw.choice([RENEW, RENEW, remove(self.genesis[0]), remove(draw.choice(self.numbers)), add(draw.choice(self.numbers))])

    def messages(self, signer):
        draw = self.draw
        count = draw.choice([1, 1, 1, 2]) if self.schedule.limit > 1 else 1
        return [(draw.choice([signer] * 2 + self.genesis), draw.choice([0, 0, 0, 1, 2])) for _ in range(count)]

    def statement(self, signer):
        """A statement in its ranges."""
        draw = self.draw
        view = draw.choice([0] * 6 + [self.view] * 6 + [self.view + 1, 1023])
        number = draw.choice(EDGES[:-2])
        rank = draw.choice([0, 0, 0, 1, 1, 2, 15])
        what = value(self.update(), draw.choice([0, 0, 0, 1, 2, 1024]))
        reported = (draw.randrange(rank), what) if rank and draw.random() < 0.5 else None
        return draw.choice([
            lambda: init(number, self.payload(), view),
            lambda: echo(draw.choice([signer] * 3 + self.genesis), number, self.payload(), view),
            lambda: at_place(draw.choice([ORDER, PLACE, KEEP]), number, self.messages(signer), view),
            lambda: notify(self.update(), view),
            lambda: end(draw.choice([0, 0, 1, 2, 1024]), view),
            lambda: last(rank, reported, view),
            lambda: at_rank(draw.choice([SUGGEST, ACK, READY]), rank, what, view),
            lambda: at_rank(draw.choice([SUGGEST, ACK, READY]), rank, what, view)])()

    def odd_statement(self, signer):
        """A statement, now and then out of its ranges or none at all."""
        draw = self.draw
        if draw.random() < 0.85:
            return self.statement(signer)
        if draw.random() < 0.5:
            return init(draw.choice(EDGES), self.payload(), draw.choice([0, 1023, 1024]))
        return u8(draw.randrange(16)) + draw.randbytes(draw.randint(0, 9))

    def signed(self, signer, statement):
        """A claim, most often with the true signature of a corrupt process."""
        draw = self.draw
        if signer not in self.numbers or draw.random() < 0.1:
            return signer, statement, draw.randbytes(draw.choice([0, 31, 32, 32, 33]))
        claim = self.schedule.claim(signer, statement)
        if draw.random() < 0.1:
            wrong = bytearray(claim[2])
            wrong[draw.randrange(32)] ^= 1 << draw.randrange(8)
            claim = signer, statement, bytes(wrong)
        return claim

    def signer(self):
        draw = self.draw
        if self.corrupt and draw.random() < 0.75:
            return draw.choice(self.corrupt)
        return draw.choice(self.numbers + [63])

    def lie(self):
        signer = self.draw.choice(self.corrupt)
        self.add(lie(signer, self.statement(signer), self.mask()))
        self.frames += 1

    def stories(self):
        """A corrupt sender tells one payload to some and another to the others, and its friends echo both."""
        draw = self.draw
        sender, number = draw.choice(self.corrupt), draw.choice([0, 0, 1, 31])
        for p in self.correct:
            payload = draw.choice([b"x", b"y"])
            claims = [self.schedule.claim(sender, init(number, payload))]
            claims += [self.schedule.claim(q, echo(sender, number, payload)) for q in self.corrupt]
            self.add(raw(p, draw.choice(self.corrupt), bundle(claims)))

    def forged(self):
        """What correct processes never said, told by another with their keys."""
        draw = self.draw
        signers = draw.sample(self.correct, draw.randint(1, min(4, len(self.correct))))
        claims = [self.schedule.claim(p, self.statement(p)) for p in signers]
        self.add(raw(draw.choice(self.correct), draw.choice(self.numbers), bundle(claims)))

    def claims(self):
        draw = self.draw
        claims = []
        for _ in range(draw.choice([1, 1, 2, 3, 5])):
            signer = self.signer()
            claims.append(self.signed(signer, self.odd_statement(signer)))
        if draw.random() < 0.3:
            signers = sorted(draw.sample(self.numbers, draw.randint(1, len(self.numbers))))
            statement = self.odd_statement(signers[0])
            claims += [self.signed(q, statement) for q in signers]
        return claims

    def odd_frame(self):
        """Bytes that are nearly a frame."""
        draw = self.draw
        frame = bundle(self.claims())
        what = draw.randrange(9)
        if what == 0:
            return frame[:draw.randrange(len(frame))]
        if what == 1:
            flipped = bytearray(frame)
            flipped[draw.randrange(len(frame))] ^= 1 << draw.randrange(8)
            return bytes(flipped)
        if what == 2:
            return frame + draw.randbytes(draw.randint(1, 3))
        if what == 3:
            return frame_of_groups([], draw.choice([BUNDLE, PROOF, 0, 4]))
        if what == 4:
            return u8(1) + u8(WANT) + u16(draw.choice([0, 0, 1, 1024])) + u16(draw.choice([0, 0, 1, 1024, 1025]))
        if what == 5:
            return bundle(self.claims(), PROOF)
        if what == 6:
            statement = self.statement(self.signer())
            signers = [draw.choice(self.numbers) for _ in range(draw.choice([0, 2, 2, 17]))]
            return frame_of_groups([(statement, [self.signed(q, statement)[::2] for q in signers])])
        if what == 7:
            signer, statement, sign = self.signed(self.signer(), self.statement(0))
            version, count = draw.choice([0, 1, 2]), draw.choice([0, 1, 2, 255])
            return frame_of_groups([(statement, [(signer, sign)])], version=version, count=count)
        return draw.randbytes(draw.choice([0, 1, 2, 3, 20, 61001]))

    def hostile_event(self):
        draw = self.draw
        what = draw.random()
        if what < 0.25 and self.corrupt:
            self.stories()
        elif what < 0.3:
            self.forged()
        else:
            frame = bundle(self.claims()) if what < 0.7 else self.odd_frame()
            self.add(raw(draw.choice(self.correct), draw.choice(self.numbers + [63]), frame[:61440]))

    # ---- events

    def event(self):
        draw = self.draw
        if self.hostile and draw.random() < 0.3:
            self.hostile_event()
            return
        kinds = [self.submit] * 5 + [self.drain] * 6 + [self.tick] * 2 + [self.hand_on] * 2 + [self.lose]
        if not self.quiet or draw.random() < 0.1:
            kinds += [self.change] * 2 + [self.lie] * (8 if self.corrupt else 0)
        draw.choice(kinds)()

    def spelled(self):
        draw = self.draw
        for _ in range(draw.randint(0, 60)):
            self.event()
        if draw.random() < 0.7:
            self.add(drain(2000))
            for p in self.correct:
                self.add(tick(p))
            self.add(drain(3000))
        if draw.random() < 0.01:
            self.add(hand_on(10**6, draw.choice(self.correct)))
        out = self.schedule.spelled()
        return self.broken(out) if draw.random() < 0.1 else out

    def broken(self, out):
        """A schedule with a fault, mostly."""
        draw = self.draw
        what = draw.randrange(4)
        head = len(self.schedule.header())
        if what == 0:
            return out[:draw.randrange(len(out))]
        if what == 1:
            return out + draw.randbytes(draw.randint(1, 4))
        changed = bytearray(out)
        place = draw.randrange(head) if what == 2 else draw.randrange(len(out))
        changed[place] = draw.choice([0, 1, 2, 63, 64, 255])
        return bytes(changed)


def drawn(number):
    return Drawing(number).spelled()


if __name__ == "__main__":
    sys.stdout.buffer.write(drawn(int(sys.argv[1])))
