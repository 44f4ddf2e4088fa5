#!/usr/bin/env python3
"""Compares the proofs that `witness proofs` writes with another implementation's, and has `rampart chain` read them.

    python3 tools/proofs.py FROM TO FOLDER [WITNESS RAMPART]

FOLDER has the other implementation, as `audits.py` has it, and frames.py with `pack`. From each number from FROM up to TO a run is drawn: a
kit of 1 to 7 members, nodes that host one process each, and events by which they leave views, with frames that are lost and come again. In
every twentieth number signatures are so long that a certificate fits into no frame. Of each process the lines are compared, byte for byte,
with those of the certificates that the other implementation keeps. Then the public lines of the kit, the line `go` and the lines are read by
`chain`: each line shows the view that the process installed next, up to the first line that is large, which is refused by its number.
WITNESS and RAMPART run in place of ./witness and ./rampart. A difference is printed, and at the end how many there were of what. The status
is 1 where anything differs.
"""

import collections
import copy
import pathlib
import subprocess
import sys

from audits import Drawing, Theirs

TOP = pathlib.Path(__file__).resolve().parent.parent
PROOF = 2
LONG = ("hss", 3, 5, 2)


def run(program, words, data):
    done = subprocess.run([program, *map(str, words)], input=data, stdout=subprocess.PIPE, check=False)
    return done.stdout.decode(), done.returncode


class Leaving(Drawing):
    """A run from a number, in which views are left."""

    def __init__(self, number, theirs):
        super().__init__(number, theirs)
        if number % 20 == 19:
            self.kit = theirs.kits.make_kit(6, 6, LONG, bytes([number % 3]) * 32)
        else:
            members = self.draw.choice([1, 2, 3, 4, 4, 4, 5, 7])
            self.kit = theirs.kits.make_kit(members, members + self.draw.choice([0, 1, 2]), ("plain", 1000), self.seed)
        self.roster = sorted(self.kit.roster)
        self.correct, self.liars = list(self.roster), []

    def asks(self, members):
        others = [p for p in self.roster if p not in members]
        if others and self.often(0.4):
            return ("join", self.draw.choice(others))
        if len(members) > 1 and self.often(0.4):
            return ("suspect", self.draw.choice(members))
        return ("renew",)

    def deliver(self, hosts, lost):
        while self.coming:
            sender, to, frame = self.coming.pop(0)
            if to in hosts and not self.often(lost):
                hosts[to].turn(hosts[to].cores[to], ("frame", sender, frame))

    def leave(self, hosts):
        """The members of a process's view ask for an update, and all hear what is said."""
        members = list(self.draw.choice([hosts[p].cores[p] for p in self.roster]).view.members)
        event, lost = self.asks(members), self.draw.choice([0, 0, 0.1])
        for p in members:
            if event != ("suspect", p):
                hosts[p].turn(hosts[p].cores[p], event)
        self.deliver(hosts, lost)
        for _ in range(2 if self.kit.scheme == "plain" else 0):
            for p in self.roster:
                hosts[p].turn(hosts[p].cores[p], ("tick",))
            self.deliver(hosts, lost)

    def hosts(self):
        self.coming = []
        hosts = {p: self.node([p]) for p in self.roster}
        for _ in range(self.draw.choice([0, 1, 2, 4]) if self.kit.scheme == "plain" else 1):
            if self.often(0.5):
                p = self.draw.choice(self.roster)
                hosts[p].turn(hosts[p].cores[p], ("submit", b"x"))
            self.leave(hosts)
        return hosts


def lines_of(core, pack):
    """Its lines, and how many stand before the first that is large."""
    told, plain = [], None
    for x, view in enumerate(core.views[:-1]):
        frames = pack(PROOF, core.commits[x])
        if len(frames) == 1:
            told.append("proof %s\n" % frames[0].hex())
        else:
            plain = x if plain is None else plain
            told.append("proof %d large\n" % core.me)
    return told, len(told) if plain is None else plain


def view_line(view):
    return "view %d : %s\n" % (view.number, " ".join(map(str, view.members)))


def main(first, end, folder, witness=TOP / "witness", rampart=TOP / "rampart"):
    theirs = Theirs(folder)
    import frames

    different, seen = 0, collections.Counter()
    for number in range(int(first), int(end)):
        drawing = Leaving(number, theirs)
        hosts = drawing.hosts()
        front = theirs.kits.public_part(drawing.kit) + b"go\n"
        seen["runs"] += 1
        for p, host in hosts.items():
            core, journal = host.cores[p], bytes(host.disk.data)
            lines, plain = lines_of(core, frames.pack)
            seen["processes"] += 1
            seen["views left"] += len(lines)
            seen["large"] += sum("large" in line for line in lines)
            got = run(witness, ["proofs", p], front + b"journal %d\n" % len(journal) + journal)
            if got != ("".join(lines), 0):
                different += 1
                print("run %d, process %d: %r, not %r" % (number, p, got, lines))
            text = "".join(map(view_line, core.views[:plain + 1]))
            stop = "" if plain == len(lines) else "stop 7 line %d\n" % (front.count(b"\n") + plain + 1)
            answer = run(rampart, ["chain"], front + got[0].encode())
            if answer != (text + stop, 7 if stop else 0):
                different += 1
                print("run %d, process %d: chain says %r, not %r" % (number, p, answer, text + stop))
    print("%d different; " % different + ", ".join("%d %s" % (count, what) for what, count in seen.items()))
    return 1 if different else 0


if __name__ == "__main__":
    if len(sys.argv) not in (4, 6):
        raise SystemExit(__doc__)
    sys.exit(main(*sys.argv[1:]))
