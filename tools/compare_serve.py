#!/usr/bin/env python3
"""Compares runs of `serve` with those of another implementation, and looks for a leaf that signs two replies.

    python3 tools/compare_serve.py NUMBER COUNT RESTARTS FOLDER [PROGRAM]

FOLDER has the other implementation, in Python: node.py with `Host`, a node that takes an input, a disk, a link and a service; devices.py
with `MemDisk`, `MemLink` and `Stopped`; kits.py with `make_kit` and `write_kit`; signatures.py with `make_signer` and `Scheme`; and store.py
with `Serve`, and with what tools/compare_store.py says. PROGRAM is a built `interop`, asked by `run WORDS INPUT JOURNAL FAILS COMING STOP`; a built
`rampart`, over a file and the system's sockets; or `-`, then the other implementation is asked alone. Without it `interop` is built.

From NUMBER on are drawn COUNT scripts of a node that hosts two to four processes: with requests of keys of few letters, joins, removals,
receives, and states that are given and offered to who joined, some of them old, cut, of another signer or with another key. Compared is the
whole output, the status, and of `interop` the journal and what was sent.

Then RESTARTS scripts of keys of trees, of which the run is stopped after each line and begins again on its journal; and by `interop` some
runs are cut off at a write or a sync of the disk, and the next one begins with one of three images of it. In every other script a process
joins and takes the store over: the keys and the states that are offered to it are said in one run, which is stopped after each of the states
and begins again, and then goes on with what is delivered next. Half of these have plain keys, whose runs are short enough for `interop`. Each
reply of ours must be signed with the leaf whose number is how many messages its process delivered before, and each state with that of its
view's number, in all these runs; and no leaf with which another body was signed. A body is kept by its leaf over all runs of a script.

Each difference is printed, and at the end how often each line came. The status is 1 where anything differs.
"""

import collections
import copy
import functools
import pathlib
import random
import subprocess
import sys
import tempfile

from compare_store import Requests, text
from interop import CRATE, build, word

PLAIN = [("plain", 100), ("plain", 100), ("plain", 100), ("plain", 30), ("plain", 9)]
TREES = [("lms", 5, 3), ("hss", 2, 5, 3), ("hss", 2, 5, 3)]
MOST_LINE = 1000000
FEW_LEAVES = 32


class Theirs:
    """The other implementation."""

    def __init__(self, folder):
        sys.path.insert(0, folder)
        import devices
        import kits
        import node
        import signatures
        import store

        self.devices, self.kits, self.node, self.store = devices, kits, node, store
        # a tree is made once, of which each node has a signer that has used nothing; and a signature is looked at once
        signer = functools.lru_cache(None)(signatures.make_signer)
        kits.make_signer = signer
        node.make_signer = store.make_signer = lambda secret: copy.copy(signer(secret))
        verify = signatures.Scheme.verify
        seen = {}

        def verify_once(self, key, body, signature):
            asked = (self.name, key, body, signature)
            if asked not in seen:
                seen[asked] = verify(self, key, body, signature)
            return seen[asked]

        signatures.Scheme.verify = verify_once
        theirs = self

        class Host(theirs.node.Host):
            """A node that is opened, and given its lines one by one."""

            def _script(self):
                pass

        self.host = Host

    def serve(self, data, journal, coming, stop=None):
        """The answer to a run: status, output, journal and what was sent; and what is still coming. Where it is cut off, the status is
        None, and the journal is the three images."""
        disk = self.devices.MemDisk(journal, (), stop and stop + ("all",))
        link = self.devices.MemLink()
        for port, datagram in coming:
            link.coming.setdefault(port, []).append(datagram)
        host = self.node.Host(data, disk, link, "batch", self.store.Serve())
        try:
            out, status = host.run()
            kept = [bytes(disk.data)]
        except self.devices.Stopped:
            out, status = "".join(line + "\n" for line in host.out).encode(), None
            kept = [disk.image(kind) for kind in ("none", "all", "a5")]
        return Answer(status, out, kept, link.sent), [(p, d) for p, queue in link.coming.items() for d in queue]


class Answer:
    def __init__(self, status, out, kept, sent):
        self.status, self.out, self.kept, self.sent = status, out, kept, sent

    def parts(self):
        return self.status, self.out, self.kept, self.sent


# ---- ours


class Interop:
    """The program `interop`, by its question on runs."""

    in_memory = True

    def __init__(self, program):
        self.program = program

    def serve(self, data, journal, coming, stop=None):
        line = " ".join(["run", word(b"serve a"), word(data), word(journal), "-",
                         ",".join("%d:%s" % (port, word(d)) for port, d in coming) or "-", "%s:%d" % stop if stop else "-"])
        if len(line) > MOST_LINE:
            return None
        done = subprocess.run([self.program], input=(line + "\n").encode(), stdout=subprocess.PIPE, check=False)
        words = done.stdout.decode().split("\n")[0].split(" ")
        bytes_of = lambda w: b"" if w == "-" else bytes.fromhex(w)
        sent = [] if words[3] == "-" else [(int(s.split(":")[0]), bytes_of(s.split(":")[1])) for s in words[3].split(",")]
        if words[0] == "stopped":
            return Answer(None, bytes_of(words[1]), [bytes_of(w) for w in words[4:7]], sent)
        return Answer(int(words[0]), bytes_of(words[1]), [bytes_of(words[2])], sent)


class Rampart:
    """The program `rampart`, over a file and the system's sockets: what it sent is lost when it ends."""

    in_memory = False

    def __init__(self, program):
        self.program = program

    def serve(self, data, journal, coming, stop=None):
        with tempfile.TemporaryDirectory() as folder:
            file = pathlib.Path(folder) / "journal"
            if journal:
                file.write_bytes(journal)
            done = subprocess.run([self.program, "serve", str(file)], input=data, stdout=subprocess.PIPE, check=False)
            return Answer(done.returncode, done.stdout, [file.read_bytes() if file.exists() else b""], [])


# ---- scripts


class Drawing:
    """A script, line by line: the other implementation's node is given each line, and what it answers is used by the next."""

    rosters = [2, 3, 3, 4, 4, 4]

    def __init__(self, number, theirs, plans):
        self.draw, self.theirs = random.Random(number), theirs
        self.requests = Requests(self.draw)
        plan, roster = self.draw.choice(plans), self.draw.choice(self.rosters)
        members = self.members_of(roster)
        self.kit = theirs.kits.make_kit(members, roster, plan, bytes([number % (256 if plan[0] == "plain" else 5)]) * 32)
        if plan[0] == "plain" and self.often(0.2):
            # one process's keys make few signatures, of replies too
            p = self.draw.randrange(roster)
            self.kit.secrets = {**self.kit.secrets, p: self.kit.secrets[p][:2] + (self.draw.choice([0, 1, 2, 3]),)}
        self.roster = list(range(roster))
        self.front = theirs.kits.write_kit(self.kit) + b"go\n"
        self.host = theirs.host(self.front, theirs.devices.MemDisk(), theirs.devices.MemLink(), "batch", theirs.store.Serve())
        self.host._run(False)
        self.lines, self.given, self.keys, self.ended = [], [], {}, False
        for line in self.host.out:
            if line.startswith("statekey "):
                self.keys[int(line.split(" ")[1])] = line.split(" ")[2]

    def members_of(self, roster):
        """How many of so many processes are members at the start."""
        return roster - 1 if self.often(0.5) else self.draw.randint(1, roster)

    def often(self, part):
        return self.draw.random() < part

    def say(self, line):
        """The line is given to the node; what it wrote then."""
        if self.ended:
            return []
        before = len(self.host.out)
        self.lines.append(line)
        if not self.host._script_line(line):
            self.ended = True
        return self.host.out[before:]

    def rounds(self, most):
        for _ in range(most):
            for p in self.roster:
                self.say("%d recv %d" % (p, self.draw.choice([8, 20, 50])))
            if not any(self.host.link.coming.values()) and not self.often(0.1):
                return

    def member(self):
        """A process, mostly a member of its own view."""
        mostly = [p for p in self.roster if self.host.cores[p].position() is not None]
        return self.draw.choice(mostly) if mostly and not self.often(0.05) else self.draw.choice(self.roster)

    # -- states

    def damaged(self, record):
        what, data = self.draw.randrange(4), bytes.fromhex(record)
        at = self.draw.randrange(len(data))
        if what == 0:
            return data[:at].hex() or "00"
        if what == 1:
            return (data + b"\0").hex()
        return (data[:at] + bytes([data[at] ^ self.draw.choice([1, 128, 255])]) + data[at + 1:]).hex()

    def forged(self, p):
        """A state of another store, of this signer and its view."""
        store = self.theirs.store
        other = store.Store()
        for payload in self.requests.payloads()[:3]:
            other.apply(payload)
        view = self.host.cores[p].view.number
        middle = store.state_middle(p, view, other.state())
        key = store.derived_signer(self.kit.secrets[p], b"RPT1")
        signature = store.sign_with_leaf(key, view, b"RPT1" + self.kit.group + middle)
        return (middle + text(signature)).hex()

    def give(self, p):
        for line in self.say("%d give" % p):
            words = line.split(" ")
            if words[0] == "state" and words[2] not in ("none", "spent"):
                self.given.append(words[2])

    def hand_keys(self, q):
        for p in self.roster:
            if not self.often(0.1):
                key = self.draw.choice(list(self.keys.values())) if self.often(0.05) else self.keys[p]
                self.say("%d statekey %d %s" % (q, p, key))

    def offer(self, q):
        """States to a process, the last ones mostly."""
        records = self.given[-self.draw.choice([1, 2, 4, 4, 8]):]
        self.draw.shuffle(records)
        for record in records:
            what = self.draw.random()
            if what < 0.08:
                record = self.damaged(record)
            elif what < 0.16:
                record = self.forged(self.draw.choice(self.roster))
            self.say("%d state %s" % (q, record))

    def transfer(self, q):
        if not self.often(0.1):
            self.hand_keys(q)
        givers = [p for p in self.roster if not self.often(0.2)]
        self.draw.shuffle(givers)
        for p in givers:
            self.give(p)
        self.offer(q)

    # -- what is asked

    def submits(self):
        for _ in range(self.draw.choice([1, 1, 2, 3])):
            payload = self.requests.payload() if not self.often(0.03) else self.draw.choice([b"", b"x" * 1024, b"x" * 1025])
            self.say("%d submit %s" % (self.member(), word(payload)))
        self.rounds(self.draw.choice([0, 1, 2, 3, 6, 6]))

    def changes(self):
        outside = [q for q in self.roster if self.host.cores[self.member()].view.rank_of(q) is None]
        what = self.draw.random()
        if what < 0.6 and outside:
            q = self.draw.choice(outside)
            for p in self.roster:
                if self.host.cores[p].position() is not None and not self.often(0.1):
                    self.say("%d join %d" % (p, q))
        elif what < 0.8:
            q = self.draw.choice(self.roster)
            for p in self.roster:
                if p != q and not self.often(0.1):
                    self.say("%d suspect %d" % (p, q))
        else:
            for p in self.roster:
                self.say("%d renew" % p)
            q = self.member()
        self.rounds(self.draw.choice([4, 10, 14, 20]))
        if self.host.cores[q].view != self.host.cores[self.member()].view:
            # who was left behind asks for what it lacks
            self.say("%d tick" % q)
            self.rounds(self.draw.choice([2, 6]))
        if self.often(0.8):
            self.transfer(q)

    def odd(self):
        p = self.draw.choice(self.roster)
        self.say(self.draw.choice([
            "%d give " % p, "%d give 0" % p, "%d state" % p, "%d state -" % p, "%d state 0" % p, "%d state 0G" % p, "%d STATE 00" % p,
            "%d statekey 0" % p, "%d statekey 63 %s" % (p, self.keys[p]), "%d statekey 0 %s0" % (p, self.keys[p]),
            "%d statekey 00 %s" % (p, self.keys[p]), "%d statekey 0 %s" % (p, self.keys[p].upper()), "%d replykey 0 00" % p, "%d reply 00" % p,
            "give", "63 give", "", "%d" % p, "snap x"]))

    def script(self):
        for _ in range(self.draw.choice([2, 4, 6, 8, 12])):
            what = self.draw.random()
            if what < 0.5:
                self.submits()
            elif what < 0.72:
                self.changes()
            elif what < 0.82:
                self.give(self.draw.choice(self.roster))
            elif what < 0.9 and self.given:
                self.offer(self.draw.choice(self.roster))
            elif what < 0.94:
                self.hand_keys(self.draw.choice(self.roster))
            else:
                self.say("%d tick" % self.draw.choice(self.roster))
                self.rounds(1)
        if self.often(0.05):
            self.odd()
        return self.lines

    def runs(self):
        """The lines of each run, where it is stopped after each line."""
        return [[line] for line in self.lines]


class Joining(Drawing):
    """A script in which the process that is outside joins, and takes the store over from states that the others give. As a run hands in the
    keys that it takes states by, the lines from the keys on are said in one run."""

    rosters = [2, 3, 4, 4, 4, 4]

    def __init__(self, number, theirs):
        # of trees the runs are soon longer than `interop` reads; plain signatures don't show their leaf, which is then the one that is wanted
        super().__init__(number, theirs, [("plain", 1000) if number % 4 == 1 else ("hss", 2, 5, 3)])
        self.joiner, self.taking = self.roster[-1], []

    def members_of(self, roster):
        return roster - 1

    def view(self):
        return self.host.cores[self.joiner].view

    def until(self, holds):
        """Rounds until that holds, with a tick of everyone after those that bring nothing."""
        for _ in range(12):
            self.rounds(6)
            if holds():
                return
            for p in self.roster:
                self.say("%d tick" % p)

    def installed(self):
        views = [self.host.cores[p].view.number for p in self.roster]
        return self.view().rank_of(self.joiner) is not None and len(set(views)) == 1

    def asks(self):
        for _ in range(self.draw.choice([1, 2, 3])):
            self.say("%d submit %s" % (self.draw.choice(self.roster), word(self.requests.payload())))
        self.rounds(self.draw.choice([2, 4, 6]))

    def takes_over(self):
        """The keys, a state of each other member and others between them, and what is delivered after it; all in one run."""
        begun, ends = len(self.lines), []
        for p in self.roster:
            self.say("%d statekey %d %s" % (self.joiner, p, self.keys[p]))
        givers = [p for p in self.roster if p != self.joiner]
        self.draw.shuffle(givers)
        for p in givers:
            self.give(p)
            if self.often(0.2):
                self.say("%d state %s" % (self.joiner, self.draw.choice([self.damaged, lambda r: self.forged(p)])(self.given[-1])))
                ends.append(len(self.lines))
            self.say("%d state %s" % (self.joiner, self.given[-1]))
            ends.append(len(self.lines))
        for _ in range(self.draw.choice([0, 1, 1, 2])):
            self.asks()
        self.taking.append((begun, ends, len(self.lines)))

    def script(self):
        self.asks()
        for p in self.roster[:-1]:
            self.say("%d join %d" % (p, self.joiner))
        self.until(self.installed)
        for _ in range(self.draw.choice([2, 3, 4])):
            what = self.draw.random()
            if what < 0.6:
                self.takes_over()
            elif what < 0.8:
                for p in self.roster:
                    self.say("%d renew" % p)
                self.until(self.installed)
            else:
                self.give(self.joiner)
            self.asks()
        self.takes_over()
        self.asks()
        return self.lines

    def runs(self):
        """A line each; where the joiner takes the store over, a run that is stopped after each of the states, and one that goes on."""
        runs, at = [], 0
        for begun, ends, ended in self.taking:
            runs += [[line] for line in self.lines[at:begun]]
            runs += [self.lines[begun:end] for end in ends] + [self.lines[begun:ended]]
            at = ended
        return runs + [[line] for line in self.lines[at:]]


def said(lines):
    return "".join(line + "\n" for line in lines).encode("latin-1")


# ---- what came


class Reached:
    def __init__(self):
        self.lines = collections.Counter()

    def note(self, answer):
        for line in answer.out.decode().splitlines():
            words = line.split(" ")
            if words[0] == "reply":
                self.lines["reply " + (words[2] if words[2] in ("none", "spent") else "HEX")] += 1
            elif words[0] == "state":
                self.lines["state " + " ".join(words[2:] if words[2] == "refused" else [w if len(w) < 9 else "HEX" for w in words[2:3]])] += 1
            elif words[0] in ("deliver", "view", "stop", "halted", "spent", "refused"):
                self.lines[words[0]] += 1

    def print(self):
        print(", ".join("%s %d" % item for item in sorted(self.lines.items())))


def differs(number, program, mine, theirs):
    """Whether two answers differ, by what this program tells."""
    if mine is None:
        return False
    count = 4 if program.in_memory else 3
    if mine.parts()[:count] == theirs.parts()[:count]:
        return False
    for name, a, b in zip(("status", "output", "journal", "sent"), mine.parts()[:count], theirs.parts()[:count]):
        if a != b:
            print("number %d: %s differs: %.2000r, not %.2000r" % (number, name, a, b))
    return True


# ---- whole runs


def compare_runs(theirs, first, count, program, reached):
    different = 0
    for number in range(first, first + count):
        drawing = Drawing(number, theirs, PLAIN if number % 25 else TREES)
        data = drawing.front + said(drawing.script())
        wanted, _ = theirs.serve(data, b"", [])
        reached.note(wanted)
        if program:
            different += differs(number, program, program.serve(data, b"", []), wanted)
    return different


# ---- restarts


class Leaves:
    """Which body each leaf of each process signed, over all runs: of its replies, and of its states."""

    def __init__(self, drawing):
        self.drawing, self.bodies, self.delivered, self.wrong = drawing, {}, collections.Counter(), 0
        store = drawing.theirs.store
        self.keys = {(kind, p): store.derived_signer(drawing.kit.secrets[p], kind) for kind in (b"RPR1", b"RPT1") for p in drawing.roster}
        self.took, self.taken = set(), collections.Counter()

    def tell(self, number, what):
        self.wrong += 1
        print("number %d: %s" % (number, what))

    def see(self, number, out):
        """The lines of a run: it begins with what each process has delivered, and each delivery has a reply."""
        self.took.clear()
        for line in out.decode().splitlines():
            words = line.split(" ")
            if words[0] == "host":
                self.delivered[int(words[1])] = int(words[5])
            elif words[0] == "deliver":
                self.delivered[int(words[1])] += 1
            elif words[0] == "reply" and words[2] not in ("none", "spent"):
                self.reply(number, int(words[1]), bytes.fromhex(words[2]))
            elif words[0] == "state" and words[2] == "ready":
                self.took.add(int(words[1]))
                self.taken["taken over"] += 1
            elif words[0] == "state" and len(words) == 3 and words[2] not in ("none", "spent"):
                self.state(number, int(words[1]), bytes.fromhex(words[2]))

    def reply(self, number, p, record):
        signature = self.drawing.theirs.store.read_reply(record)[6]
        self.signed(number, b"RPR1", p, self.delivered[p] - 1, record[:-2 - len(signature)], signature)
        if p in self.took:
            self.taken["replies by who took it over"] += 1

    def state(self, number, p, record):
        _, view, _, signature = self.drawing.theirs.store.read_state(record)
        self.signed(number, b"RPT1", p, view, record[:-2 - len(signature)], signature)
        if p in self.took:
            self.taken["states by who took it over"] += 1

    def signed(self, number, kind, p, wanted, fields, signature):
        """What is signed with the leaf that is wanted, and with no other."""
        sign, key, body = self.drawing.theirs.store.sign_with_leaf, self.keys[kind, p], kind + self.drawing.kit.group + fields
        by = lambda leaf: signature == sign(key, leaf, body)
        leaves = [wanted] if by(wanted) else [leaf for leaf in range(FEW_LEAVES) if by(leaf)]
        if leaves != [wanted]:
            self.tell(number, "what process %d signs is signed with leaf %s, not with %d" % (p, leaves or "none", wanted))
        for leaf in leaves:
            if self.bodies.setdefault((kind, p, leaf), body) != body:
                self.tell(number, "leaf %d of process %d has signed two bodies" % (leaf, p))


def compare_restarts(theirs, first, count, program, reached):
    """Runs that are stopped after each line, and begin again on what is left; every other script has a process that takes the store over."""
    wrong = runs = cut_off = 0
    taken = collections.Counter()
    for number in range(first, first + count):
        drawing = Joining(number, theirs) if number % 2 else Drawing(number, theirs, TREES)
        drawing.script()
        leaves, draw = Leaves(drawing), random.Random(number)
        # what is lost ends many a change of view, so most of those scripts lose little
        often = 0.02 if number % 2 and draw.random() < 0.7 else 0.15
        journal, coming, ours_journal = b"", [], b""
        for lines in drawing.runs():
            cut = None
            if (program is None or program.in_memory) and draw.random() < often:
                cut = (draw.choice(["write", "sync"]), draw.choice([1, 2, 3, 4, draw.randint(1, 30)]))
            data = drawing.front + said(lines)
            wanted, left = theirs.serve(data, journal, coming, cut)
            mine = program.serve(data, ours_journal, coming, cut) if program else wanted
            if mine is None:
                break
            runs, cut_off = runs + 1, cut_off + (wanted.status is None)
            reached.note(wanted)
            wrong += program is not None and differs(number, program, mine, wanted)
            leaves.see(number, mine.out)
            image = draw.randrange(len(wanted.kept))
            journal, ours_journal = wanted.kept[image], mine.kept[min(image, len(mine.kept) - 1)]
            coming = left if program is None or program.in_memory else []
            if draw.random() < often * 2 / 3:
                coming = [d for d in coming if draw.random() < 0.7]
        wrong, taken = wrong + leaves.wrong, taken + leaves.taken
    print("%d runs, %d cut off%s" % (runs, cut_off, "".join(", %s %d" % item for item in sorted(taken.items()))))
    return wrong


def program_of(name):
    if name is None:
        build()
        return Interop(str(CRATE / "out" / "interop"))
    if name == "-":
        return None
    return Rampart(name) if pathlib.Path(name).name.startswith("rampart") else Interop(name)


def main(first, count, restarts, folder, program):
    theirs, reached = Theirs(folder), Reached()
    ours = program_of(program)
    different = compare_runs(theirs, first, count, ours, reached)
    print("%d scripts, %d different" % (count, different))
    reached.print()
    reached = Reached()
    wrong = compare_restarts(theirs, first, restarts, ours, reached)
    print("%d scripts stopped after each line, %d different" % (restarts, wrong))
    reached.print()
    return 1 if different or wrong else 0


if __name__ == "__main__":
    if len(sys.argv) not in (5, 6):
        sys.exit(__doc__)
    sys.exit(main(int(sys.argv[1]), int(sys.argv[2]), int(sys.argv[3]), sys.argv[4], sys.argv[5] if len(sys.argv) == 6 else None))
