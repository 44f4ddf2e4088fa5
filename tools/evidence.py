#!/usr/bin/env python3
"""Compares the evidence that `witness convict` writes with another implementation's, and has `witness judge` judge it.

    python3 tools/evidence.py FROM TO FOLDER [PROGRAM]

FOLDER has the other implementation, as `audits.py` has it, and frames.py with `FrameWriter`, statements.py with `spell`. An audit is
drawn from each number from FROM up to TO, as there. Compared are all bytes of the evidence, or of the line that says why there is none,
and the status. Then the public lines of the kit, the line `go` and the evidence are judged: all is to be taken. Of the first 50 pieces of
evidence each bit is flipped in turn, up to 4,000 of them: the other implementation says whether the frame is still a Bundle that convicts
its process, and the answer is to be the same. PROGRAM runs in place of ./witness. A difference is printed, and at the end how many there
were of what. The status is 1 where anything differs.
"""

import collections
import pathlib
import subprocess
import sys

from audits import Drawing, Theirs

WITNESS = pathlib.Path(__file__).resolve().parent.parent / "witness"
FLIPPED, FLIPS = 50, 4000


def run(program, words, data):
    done = subprocess.run([program, *map(str, words)], input=data, stdout=subprocess.PIPE, check=False)
    return done.stdout, done.returncode


class Judge:
    """What the other implementation says of evidence."""

    def __init__(self, theirs):
        import frames
        import kits
        import signatures
        import statements

        self.theirs, self.frames, self.kits, self.signatures, self.statements = theirs, frames, kits, signatures, statements

    def bundle(self, claims):
        writer = self.frames.FrameWriter(1)
        for claim in claims:
            writer.add(self.statements.spell(claim.statement), claim.signer, claim.signature)
        return writer.frame()

    def evidence(self, listed, data):
        """What `convict` is to write, the status, and the kit."""
        audit = self.theirs.audit
        lines = self.kits.Lines(data)
        try:
            kit = self.kits.read_kit(lines, "batch")
            journals = audit.read_journals(lines)
            found = audit.audit(kit, listed, journals, "batch").convicted
        except (self.kits.KitFault, audit.AuditFault):
            return (*self.theirs.answer(listed, data), None)
        told = ["evidence %d %s\n" % (p, self.bundle(pair).hex()) for p, pair in found.items()]
        return "".join(told).encode(), 0, kit

    def is_taken(self, kit, process, frame):
        try:
            head, _ = self.frames.read_frame(frame, True)
        except self.statements.FrameFault:
            return False
        scheme = self.signatures.Scheme(kit.scheme)
        return head[0] == 1 and process in self.theirs.audit.convicted_in(scheme, kit.roster, kit.group, frame, True)


def flipped(judge, program, kit, front, line):
    """How many answers to the line with a flipped bit differ."""
    _, process, word = line.split()
    frame, different = bytes.fromhex(word.decode()), 0
    for at in range(min(8 * len(frame), FLIPS)):
        other = bytearray(frame)
        other[at // 8] ^= 1 << at % 8
        answer = run(program, ["judge"], front + b"evidence %s %s\n" % (process, other.hex().encode()))
        taken = judge.is_taken(kit, int(process), bytes(other))
        wanted = (b"", 0) if taken else (b"stop 7 evidence %d\n" % (front.count(b"\n") + 1), 7)
        if answer != wanted:
            different += 1
            print("bit %d of %s: %r, not %r" % (at, line.decode().strip(), answer, wanted))
    return different


def main(first, end, folder, program=WITNESS):
    if program == WITNESS:
        subprocess.run([str(WITNESS), "--prove"], check=True)
    theirs = Theirs(folder)
    judge, different, seen = Judge(theirs), 0, collections.Counter()
    for number in range(int(first), int(end)):
        listed, data = Drawing(number, theirs).audit()
        wanted, status, kit = judge.evidence(listed, data)
        got = run(program, ["convict", *listed], data)
        seen["audits"] += 1
        if got != (wanted, status):
            different += 1
            print("audit %d: %r, not %r" % (number, got, (wanted, status)))
        if kit is None or not wanted:
            continue
        front = theirs.kits.public_part(kit) + b"go\n"
        answer = run(program, ["judge"], front + wanted)
        if answer != (b"", 0):
            different += 1
            print("audit %d: judged %r" % (number, answer))
        for line in wanted.splitlines(True):
            seen["pieces of evidence"] += 1
            if seen["pieces of evidence"] <= FLIPPED:
                seen["flipped"] += 1
                different += flipped(judge, program, kit, front, line)
    print("%d different; " % different + ", ".join("%d %s" % (count, what) for what, count in seen.items()))
    return 1 if different else 0


if __name__ == "__main__":
    if len(sys.argv) not in (4, 5):
        raise SystemExit(__doc__)
    sys.exit(main(*sys.argv[1:]))
