#!/usr/bin/env python3
"""Compares whom the claims of frames convict with whom another implementation convicts.

    python3 tools/compare_convicted.py NUMBER COUNT FOLDER

FOLDER has the other implementation, in Python: frames.py with `read_frame`, statements.py with `FrameFault`, signatures.py with `Scheme`, and
audit.py with `convicted_in`. COUNT frames are drawn from NUMBER: Bundles and Proofs of 1 to 255 claims, of members of whom some lie, with
signatures that are not valid and of processes without a key; Wants; and frames of which a byte is changed or the end is cut. Ours are the
answers of the program `interop` to `convicted FRAME`. Each difference is printed, and at the end how often how many were convicted, and how
often each fault came. The status is 1 where anything differs.
"""

import random
import sys

from compare_pool import GROUP, KEYED, Drawing, fixed, key_of
from interop import build, compare, compare_stops, word
from schedules import ECHO, KEEP, PLACE, PROOF, READY, WANT, bundle, echo, u8, u16

# of which kinds a Proof has claims, of several messages (13, 14) too
CERTIFIED = {ECHO, PLACE, KEEP, READY, 13, 14}


class Theirs:
    def __init__(self, folder):
        sys.path.insert(0, folder)
        import audit
        import frames
        import signatures
        import statements

        self.audit, self.frames, self.statements = audit, frames, statements
        self.scheme = signatures.Scheme("plain")
        self.roster = {p: key_of(p) for p in range(KEYED)}

    def answer(self, frame):
        try:
            self.frames.read_frame(frame, True)
        except self.statements.FrameFault as fault:
            return fault.word
        convicted = self.audit.convicted_in(self.scheme, self.roster, GROUP, frame, True)
        return " ".join(["convicted", *map(str, sorted(convicted))])


def drawn(seed):
    """A frame from a number."""
    draw = random.Random(seed)
    if draw.random() < 0.03:
        return u8(1) + u8(WANT) + u16(draw.randint(0, 1023)) + u16(draw.randint(0, 1023))
    drawing = Drawing(seed)
    _, _, _, frame = drawing.question()
    if draw.random() < 0.6:
        claims = drawing.sequence()
        few = draw.sample(claims, min(len(claims), draw.randint(1, 12)))
        frame = bundle(few or [drawing.claim(0, drawing.slot(0)[0])])
    if draw.random() < 0.4:
        few = [claim for claim in drawing.sequence() if claim[1][0] in CERTIFIED][: draw.randint(1, 40)]
        frame = bundle(few or [drawing.claim(0, echo(0, 0, b""))])
        frame = frame[:1] + u8(PROOF) + frame[2:]
    if draw.random() < 0.1:
        at = draw.randrange(len(frame))
        frame = draw.choice([frame[:at], frame[:at] + u8(frame[at] ^ 1 << draw.randrange(8)) + frame[at + 1 :]])
    return frame


NO_QUESTIONS = ["convicted\n", "convicted \n", "convicted 0\n", "convicted 0g\n", "convicted 00 00\n", "convicted 00 \n", "convict 00\n"]


def main(number, count, folder):
    theirs = Theirs(folder)
    frames = [frame for _, _, _, frame in fixed()] + [drawn(number * 1000003 + n) for n in range(count)]
    asked = [("convicted " + word(frame), theirs.answer(frame)) for frame in frames]
    build()
    kind = lambda line, answer: f"{answer.count(' ')} convicted" if answer.startswith("convicted") else answer
    return 1 if compare(asked, kind) + compare_stops("verify lms - 00 ff\n", NO_QUESTIONS) else 0


if __name__ == "__main__":
    if len(sys.argv) != 4:
        sys.exit(__doc__)
    sys.exit(main(int(sys.argv[1]), int(sys.argv[2]), sys.argv[3]))
