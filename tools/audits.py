#!/usr/bin/env python3
"""Compares what `rampart audit` answers with what another implementation does.

    python3 tools/audits.py FROM TO FOLDER [PROGRAM]

FOLDER has the other implementation, in Python: audit.py with `audit_command`, which answers an input with what is written and the status;
node.py with `Host`, a node whose processes take events by `turn`; devices.py with `MemDisk` and `MemLink`; journals.py with `entry_at` and
`entry_bytes`; kits.py with `make_kit`, `public_part` and `write_kit`; and signatures.py with `make_signer`. An audit is drawn from each
number from FROM up to TO: a kit of 1 to 16 members; nodes that host some of its processes, one or several each, and run for a while, with
frames that are lost, late or come twice; processes that lie to them, in whose names conflicting claims come up, valid and forged ones; the
nodes' journals, some left out, doubled, of another kit, idle, with an entry that its process cannot have written, or with bytes behind the
closed gate; a listing of processes; and lines of other forms. In every third number a byte of the input is damaged. Compared are all bytes and
the status. PROGRAM runs in place of ./rampart. A difference is printed, and at the end how many audits there were and how they ended. The
status is 1 where anything differs.
"""

import collections
import copy
import functools
import pathlib
import random
import subprocess
import sys

from schedules import (ACK, BUNDLE, KEEP, ORDER, PLACE, PROOF, READY, RENEW, SUGGEST, add, at_place, at_rank, body, bundle, echo, end, init,
                       last, notify, remove, signature, value)

RAMPART = pathlib.Path(__file__).resolve().parent.parent / "rampart"
TREES = (("lms", 5, 3), ("hss", 2, 5, 3))
HEADER, SENDER_AT, TAG = 60, 20, 32
MOST_JOURNALS = 64


class Theirs:
    def __init__(self, folder):
        sys.path.insert(0, folder)
        import audit
        import devices
        import journals
        import kits
        import node
        import signatures

        self.audit, self.devices, self.journals, self.kits, self.node = audit, devices, journals, kits, node
        # a tree is made once, and not for each input that has its secret
        self.signer = functools.lru_cache(None)(signatures.make_signer)

    def answer(self, listed, data):
        return self.audit.audit_command(listed, data, "batch")


class Drawing:
    """An audit from a number."""

    def __init__(self, number, theirs):
        self.number, self.draw, self.theirs = number, random.Random(number), theirs
        tree = self.draw.random() < 0.03
        members = self.draw.choice([1, 2, 3] if tree else [1, 2, 3, 4, 4, 4, 4, 5, 7, 16])
        roster = members + self.draw.choice([0, 0, 0, 1, 2])
        plan = self.draw.choice(TREES) if tree else ("plain", self.draw.choice([100, 100, 100, 3]))
        self.seed = bytes([number % 3 if tree else number % 256]) * 32
        self.kit = theirs.kits.make_kit(members, roster, plan, self.seed)
        self.roster = list(range(roster))
        self.correct = sorted(self.draw.sample(self.roster, self.draw.randint(max(1, roster - 1 - roster // 3), roster)))
        self.liars = [p for p in self.roster if p not in self.correct]

    def often(self, part):
        return self.draw.random() < part

    def some(self, items):
        return self.draw.sample(items, self.draw.randint(1, len(items)))

    # -- a run

    def nodes(self):
        """The correct processes on nodes, each with a journal of its own."""
        left, shares = self.some(self.correct) if self.often(0.1) else list(self.correct), []
        self.draw.shuffle(left)
        while left:
            share = left[:self.draw.choice([1, 1, 2, len(left)])]
            left = left[len(share):]
            shares.append(sorted(share))
        return [self.node(share) for share in shares]

    def node(self, share):
        kit = copy.copy(self.kit)
        kit.secrets = {p: self.kit.secrets[p] for p in share}
        kit.pairs = {pair: key for pair, key in self.kit.pairs.items() if pair[0] in share}
        disk, stage = self.theirs.devices.MemDisk(), self.draw.choice(["batch", "batch", "full"])
        stage = "batch" if self.kit.scheme == "hss" else stage
        host = self.theirs.node.Host(self.theirs.kits.write_kit(kit) + b"go\n", disk, Wire(self), stage)
        written, status = host.run()
        assert status == 0, written
        return host

    def run(self, nodes):
        """Events of the nodes' processes, and the frames that they send, as they come."""
        hosts = {p: host for host in nodes for p in host.cores}
        self.coming = []
        for _ in range(self.draw.choice([0, 3, 8, 20])):
            p = self.draw.choice(sorted(hosts))
            hosts[p].turn(hosts[p].cores[p], self.event(p))
            for _ in range(self.draw.choice([0, 2, 10])):
                if not self.coming:
                    break
                sender, to, frame = self.coming.pop(0 if self.often(0.8) else self.draw.randrange(len(self.coming)))
                if to in hosts and not self.often(0.1):
                    hosts[to].turn(hosts[to].cores[to], ("frame", sender, frame))

    def event(self, p):
        if self.liars and self.often(0.4):
            return ("frame", self.draw.choice(self.liars), self.lie())
        what = self.draw.randrange(10)
        if what < 6:
            return ("submit", self.draw.randbytes(self.draw.choice([0, 1, 2, 40])))
        if what == 6:
            return ("suspect", self.draw.choice(self.roster + [63]))
        if what == 7:
            return ("join", self.draw.choice(self.roster + [63]))
        return self.draw.choice([("renew",), ("tick",)])

    # -- lies

    def said(self):
        """A statement, mostly on one of a few slots, and half the time on one of two."""
        members, n = list(self.kit.genesis), self.draw.choice([0, 0, 1])
        if self.often(0.5):
            return self.draw.choice([echo(members[0], 0, b"a"), echo(members[0], 0, b"b"), end(0), end(1)])
        view = self.draw.choice([0, 0, 0, 0, 1, 7])
        message, text = (self.draw.choice(members), n), self.draw.choice([b"a", b"b", b""])
        update = self.draw.choice([RENEW, remove(self.draw.choice(self.roster)), add(self.draw.choice(self.roster))])
        what = value(update, self.draw.choice([0, 1]))
        rank = self.draw.choice([0, 0, 1])
        return self.draw.choice([
            lambda: init(n, text, view),
            lambda: echo(*message, text, view),
            lambda: echo(*message, text, view),
            lambda: at_place(self.draw.choice([ORDER, PLACE, KEEP]), n, [message] + self.draw.choice([[], [], [(members[0], n + 1)]]), view),
            lambda: notify(update, view),
            lambda: end(self.draw.choice([0, 1]), view),
            lambda: last(rank, self.draw.choice([None, (0, what)]), view),
            lambda: at_rank(self.draw.choice([SUGGEST, ACK, READY]), rank, what, view),
        ])()

    def claim(self, signer, statement):
        secret = self.kit.secrets.get(signer)
        if secret is None or self.often(0.08):
            return signer, statement, self.draw.randbytes(self.draw.choice([0, 32]))
        if secret[0] == "plain":
            return signer, statement, signature(secret[1], self.kit.group, signer, statement)
        leaf = self.draw.randrange(4)
        return signer, statement, self.theirs.signer(secret).sign_at(leaf, body(self.kit.group, signer, statement))

    def lie(self):
        """A frame of claims: of a liar, of several, and rarely of whoever has a key."""
        signers = self.roster + [63] if self.often(0.1) else self.liars
        claims = []
        for _ in range(self.draw.choice([1, 1, 2, 2, 3, 6])):
            statement = self.said()
            claims += [self.claim(p, statement) for p in sorted(self.some(signers)[:3])]
        claims = claims if self.kit.scheme == "plain" else claims[:6]
        frame = bundle(claims, self.draw.choice([BUNDLE, BUNDLE, PROOF]))
        return frame[:self.draw.randrange(len(frame))] if self.often(0.05) else frame

    # -- journals

    def entries(self, journal):
        """The places of its gates, and the entries behind them."""
        place, found = HEADER, []
        while True:
            entry = self.theirs.journals.entry_at(journal, place)
            if entry is None:
                return found, place
            found.append((place, entry[0]))
            place = entry[1]

    def record(self, process, event, spent, signatures):
        entry = self.theirs.journals.entry_bytes(process, event, spent, signatures)
        return b"\x01" + len(entry).to_bytes(4, "big") + entry

    def changed(self, journal):
        """With an entry that its process has not written so, or with one more."""
        found, closed = self.entries(journal)
        if not found or self.often(0.2):
            process, event = self.draw.choice(self.roster), self.draw.choice([("tick",), ("submit", b"x"), ("frame", 0, self.lie_or_dust())])
            return journal[:closed] + self.record(process, event, self.often(0.2), []) + b"\x00"
        at = self.draw.randrange(len(found))
        place, (process, event, spent, signatures) = found[at]
        behind = journal[found[at + 1][0] if at + 1 < len(found) else closed:]
        what = self.draw.randrange(5)
        if what == 0:
            spent = not spent
        elif what == 1 and signatures:
            signatures = signatures[:-1]
        elif what == 2 and signatures:
            signatures = signatures[:-1] + [self.draw.randbytes(len(signatures[-1]))]
        elif what == 3:
            process = self.draw.choice(self.roster)
        else:
            event = ("submit", b"other")
        return journal[:place] + self.record(process, event, spent, signatures) + behind

    def lie_or_dust(self):
        return self.lie() if self.liars else self.draw.randbytes(9)

    def other(self, journal):
        """A header that is not the kit's, or another mask."""
        at = self.draw.choice([0, 3, 4, 19, 20, 27, 28, HEADER - 1])
        return journal[:at] + bytes([journal[at] ^ self.draw.choice([1, 2, 3, 128])]) + journal[at + 1:]

    def idle(self, journal):
        """A journal of a process, or of none, in which nothing happened."""
        mask = (1 << self.draw.choice(self.roster)) if self.often(0.1) else 0
        return journal[:20] + mask.to_bytes(8, "big") + journal[28:HEADER] + b"\x00"

    def journals(self):
        nodes = self.nodes()
        self.run(nodes)
        all_of = [bytes(host.disk.data) for host in nodes]
        one = self.draw.randrange(len(all_of))
        what = self.draw.randrange(24)
        if what == 0:
            all_of.pop(one)
        elif what == 1:
            all_of.append(all_of[one])
        elif what == 2:
            all_of[one] = self.other(all_of[one])
        elif what < 7:
            all_of[one] = self.changed(all_of[one])
        elif what < 9:
            all_of[one] += self.draw.randbytes(self.draw.choice([1, 3, 40]))
        elif what == 9:
            all_of += [self.idle(all_of[one]) for _ in range(self.draw.choice([1, 2, MOST_JOURNALS - len(all_of) + self.draw.choice([0, 1])]))]
        elif what == 10:
            all_of[one] = all_of[one][:self.draw.randrange(len(all_of[one]) + 1)]
        self.draw.shuffle(all_of)
        return all_of

    # -- the input

    def listing(self):
        """Mostly the correct processes."""
        what = self.draw.randrange(10)
        if what == 0:
            return sorted(self.some(self.roster))
        if what == 1:
            return sorted(self.some(self.correct))
        if what == 2 and self.often(0.3):
            return sorted({*self.correct, self.draw.randrange(64)})
        return self.correct

    def journal_text(self, journal):
        size = len(journal)
        other = [size + 1, max(0, size - 1), 1073741824, 1073741825, 2**64, "0%d" % size, "+%d" % size, "", "%d " % size]
        word = self.draw.choice(other) if self.often(0.01) else size
        return ("journal %s\n" % word).encode() + journal

    def front(self):
        secrets = self.often(0.5 if self.kit.scheme == "plain" else 0.1)
        text = (self.theirs.kits.write_kit if secrets else self.theirs.kits.public_part)(self.kit)
        lines = text.splitlines(True)
        at, damage = self.draw.randrange(len(lines)), self.draw.randrange(60)
        if damage == 0:
            return b"".join(lines[:at] + lines[at + 1:]) + b"go\n"
        if damage == 1:
            return b"".join(lines[:at + 1] + lines[at:]) + b"go\n"
        return text + (b"go \n" if damage == 2 else b"go\n")

    def audit(self):
        data = self.front() + b"".join(self.journal_text(journal) for journal in self.journals())
        if self.number % 3 == 0:
            at = self.draw.randrange(len(data))
            data = data[:at] + bytes([data[at] ^ self.draw.randint(1, 255)]) + data[at + 1:]
        return self.listing(), data[:-1] if self.often(0.01) else data


class Wire:
    """The link of a node: what is sent comes up in the drawing, with who sent it."""

    def __init__(self, drawing):
        self.drawing = drawing

    def bind(self, port):
        pass

    def send(self, port, datagram):
        kit = self.drawing.kit
        to = next(p for p in kit.roster if kit.ports[p] == port)
        sender = datagram[SENDER_AT]
        self.drawing.coming.append((sender, to, datagram[SENDER_AT + 2:-TAG]))


def ours(program, listed, data):
    done = subprocess.run([program, "audit", *map(str, listed)], input=data, stdout=subprocess.PIPE, check=False)
    return done.stdout, done.returncode


def end_of(answer):
    """Its status and the word of a fault, or how the questions were answered and whether anybody is convicted."""
    if answer[1]:
        return "%d %s" % (answer[1], answer[0].split()[2].decode() if answer[0] else "-")
    told = [word for word in ("agree", "bounded", "honest", "sound") if b'"%s":false' % word.encode() in answer[0]]
    return "0" + (" convicted" if b'"convicted":[{' in answer[0] else "") + "".join(" not " + word for word in told)


def main(first, end_, folder, program=RAMPART):
    if program == RAMPART:
        subprocess.run([str(RAMPART), "--prove"], check=True)
    theirs = Theirs(folder)
    different, ends = 0, collections.Counter()
    for number in range(int(first), int(end_)):
        listed, data = Drawing(number, theirs).audit()
        wanted, got = theirs.answer(listed, data), ours(program, listed, data)
        ends[end_of(wanted)] += 1
        if got != wanted:
            different += 1
            print("audit %d: %r, not %r" % (number, got, wanted))
    print("%d audits, %d different" % (sum(ends.values()), different))
    print(", ".join("%s: %d" % item for item in sorted(ends.items())))
    return 1 if different else 0


if __name__ == "__main__":
    if len(sys.argv) not in (4, 5):
        raise SystemExit(__doc__)
    sys.exit(main(*sys.argv[1:]))
