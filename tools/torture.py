#!/usr/bin/env python3
"""Drawn runs of groups of real nodes, and after each of them what must hold.

    python3 tools/torture.py NUMBER COUNT [--program PROGRAM] [--show] [--plant FAULT]

One run of each number from NUMBER on: a group of 4 to 7 nodes (tools/group.py), over a network that loses, repeats and delays; with plain
keys or trees; one message at a time, or many; nodes are killed at any time, or when a new signature of theirs has just gone out, and
started again on their journals, by `node` or by `resume` from the last snapshot; what comes after the closed gate is cut anywhere, as a
crash may leave it that comes while an entry is written; cuts that heal; at most f liars, of whom some members are handed other texts than
the rest, who for a while send nothing to some of them, or send again what they sent long ago; suspicions and joins of so many members that
views change. At last the network is whole, all nodes run, and time goes on. Then

- no correct process has signed two texts for one slot, nor two bodies with one leaf, in any datagram that a node sent;
- what the nodes wrote agrees: one message for a view, place, sender and number, each delivered once by a node, in rising order;
- an audit of all journals says `honest`, `agree` and `sound`, and convicts nobody but liars;
- what a journal holds is at least what its node wrote, and has all signatures that its node sent: at each start, and at the end;
- opened from its last snapshot, a node says what it says where it is opened without.

Where members were removed until liars were more than f of a view, the audit says that the run is not bounded, and agreement is not asked
for. What a correct member that stayed was given to send, and was not delivered by all that stayed within 100 ticks, is counted and is no
fault: nothing promises progress. A run that breaks a rule is printed with its number; the status is 1 then.

--plant makes a fault, to show that it is seen: `late`, the nodes are those of the crate late_writes, which send before an entry is in the
file; `forget`, a node that is started again lacks the last entry of its journal; `anew`, it begins with no journal, and its key again with
the first signature; `skip`, the audit is not handed the journal of one correct process.
"""
import argparse
import collections
import contextlib
import json
import pathlib
import random
import shutil
import signal
import subprocess
import sys
import time

import group
import schedules

TICK = 0.1
MOST_TICKS = 100
# within which a node that is started opens its journal
MOST_SECONDS = 60
# the bytes of a journal before its entries
HEADER = 60
# where the words of a slot end in a statement of each kind, which begins with its kind and view; a Notify has no slot of one content
SLOT = {schedules.INIT: 5, schedules.ECHO: 6, schedules.ORDER: 5, schedules.PLACE: 5, schedules.KEEP: 5, schedules.END: 3,
        schedules.LAST: 4, schedules.SUGGEST: 4, schedules.ACK: 4, schedules.READY: 4}
# an Order, a Place and a Keep of several messages are of the slots of those of one
OF_ONE = {12: schedules.ORDER, 13: schedules.PLACE, 14: schedules.KEEP}


def claims_in(frame):
    """Each (signer, statement, signature) of a frame that a node made."""
    if frame[1] == schedules.WANT:
        return
    at = 3
    for _ in range(frame[2]):
        length = int.from_bytes(frame[at : at + 2], "big")
        statement = frame[at + 2 : at + 2 + length]
        at += 2 + length
        count = frame[at]
        at += 1
        for _ in range(count):
            signer, size = frame[at], int.from_bytes(frame[at + 1 : at + 3], "big")
            yield signer, statement, frame[at + 3 : at + 3 + size]
            at += 3 + size


class Watch(group.Network):
    """The network, which looks at all that the nodes send."""

    def __init__(self, ports, parts, seed):
        super().__init__(ports, parts, seed)
        self.slots, self.leaves, self.faults, self.trees = {}, {}, [], False
        self.liars, self.withheld, self.old, self.sent = set(), set(), [], collections.defaultdict(set)
        # nodes that are killed as soon as a new signature of theirs has gone out, and how
        self.doomed, self.kill = set(), None

    def take(self, p, q, datagram):
        before = len(self.sent[p])
        for signer, statement, signature in claims_in(datagram[22:-32]):
            self.look(signer, statement, signature)
            if signer == p:
                self.sent[p].add(signature)
        if p in self.doomed and len(self.sent[p]) > before:
            self.doomed.discard(p)
            self.kill(p)
        if p in self.liars:
            self.old.append((q, datagram))
        if (p, q) in self.withheld:
            self.counts["withheld"] += 1
            return
        super().take(p, q, datagram)

    def look(self, signer, statement, signature):
        if signer in self.liars:
            return
        kind = OF_ONE.get(statement[0], statement[0])
        if kind in SLOT:
            slot = signer, kind, statement[1 : SLOT[kind]]
            if self.slots.setdefault(slot, statement) != statement:
                self.faults.append(f"{signer} signed two texts: {self.slots[slot].hex()} and {statement.hex()}")
        if self.trees:
            leaf = signer, signature[:4]
            if self.leaves.setdefault(leaf, statement) != statement:
                self.faults.append(f"{signer} signed two texts with leaf {leaf[1].hex()}")


def gates(journal):
    """Where the gates of a journal are, the closed one last."""
    found = [HEADER]
    while journal[found[-1] : found[-1] + 1] == b"\1":
        found.append(found[-1] + 5 + int.from_bytes(journal[found[-1] + 1 : found[-1] + 5], "big"))
    return found


def signatures_in(journal):
    """The signatures of a journal's entries. An entry is a process, an event, a byte, how many they are, and each after its length."""
    found = gates(journal)
    for begin, end in zip(found, found[1:]):
        entry = journal[begin + 5 : end]
        # a payload, or a frame after its sender, has its length before it; a process, or nothing, is after another event's number
        text = {1: 2, 2: 3}.get(entry[1])
        at = text + 2 + int.from_bytes(entry[text : text + 2], "big") if text else 3 if entry[1] in (6, 7) else 2
        at += 3
        while at < len(entry):
            size = int.from_bytes(entry[at : at + 2], "big")
            yield entry[at + 2 : at + 2 + size]
            at += 2 + size


class Run(group.Group):
    """A group whose lines are kept."""

    def __init__(self, number, words):
        self.draw = random.Random(number)
        self.n = self.draw.choice([4, 4, 4, 5, 7])
        self.trees = self.draw.random() < 0.2
        self.liars = set(self.draw.sample(range(self.n), self.draw.randint(0, (self.n - 1) // 3))) if not self.trees else set()
        self.plant = words.plant
        self.shows, self.heard, self.count = words.show, collections.defaultdict(list), collections.Counter()
        keys = "lms:5:4" if self.trees else "plain:100000"
        super().__init__(argparse.Namespace(
            program=words.program, guards=False, tick=TICK, folder=None, seed=number, n=self.n, keys=keys, direct=False,
            loss=self.draw.choice([0, 0.05, 0.2]), twice=self.draw.choice([0, 0.1]), late=self.draw.choice([0, 0.1, 0.3])))
        self.network.trees, self.network.liars, self.network.kill = self.trees, self.liars, self.kill_now
        self.given = collections.defaultdict(list)

    def make_network(self, parts, seed):
        return Watch(self.kit.ports, parts, seed)

    def say(self, p, line):
        if self.shows:
            super().say(p, line)
        if p != "-":
            self.heard[p].append(line)
            self.count[line.split()[0]] += 1

    # -- what happens

    def start(self, p):
        path = self.folder / f"{p}.journal"
        if path.exists():
            self.leave(path, path.read_bytes())
            self.network.faults += self.lost(p)
        # a journal that lost its end has no place for a snapshot
        by_snapshot = self.nodes[p].snapshot and self.plant not in ("forget", "anew") and self.draw.random() < 0.5
        self.count["resumes"] += bool(by_snapshot)
        (super().resume if by_snapshot else super().start)(p)

    def lost(self, p):
        """What a correct node sent, and its journal lacks."""
        if p in self.liars:
            return []
        count = len(self.network.sent[p].difference(signatures_in((self.folder / f"{p}.journal").read_bytes())))
        return [f"the journal of {p} lacks {count} signatures that its node sent"] if count else []

    def leave(self, path, journal):
        """What a crash, or a planted fault, leaves of a journal."""
        found = gates(journal)
        if self.plant == "anew":
            path.write_bytes(b"")
        elif self.plant == "forget" and len(found) > 1:
            path.write_bytes(journal[: found[-2]] + b"\0")
        elif self.plant is None and len(found) > 1:
            # of an entry that is written, with the gate after it, any front may be there; here it is the last one once more
            entry = journal[found[-2] + 1 : found[-1]] + b"\0"
            path.write_bytes(journal[: found[-1] + 1] + entry[: self.draw.randrange(len(entry) + 1)])
            self.count["torn"] += 1

    def running(self):
        return [p for p, it in self.nodes.items() if it.runs]

    def act(self, number):
        what = self.draw.choices(["submit", "kill", "start", "snap", "cut", "heal", "vote", "lie", "rest"], [8, 4, 5, 4, 1, 1, 1, 2, 3])[0]
        running = self.running()
        if what == "submit" and running:
            p = self.draw.choice(running)
            # a tree has few signatures
            for at in range(1 if self.trees else self.draw.choice([1, 1, 1, 1, 4, 20])):
                text = f"{number} of {p}, {at}"
                self.given[p].append(text.encode())
                # it may have been killed meanwhile
                with contextlib.suppress(ValueError):
                    self.submit(p, text)
        elif what == "kill" and running:
            p = self.draw.choice(running)
            if self.draw.random() < 0.5:
                self.kill_now(p)
            else:
                self.network.doomed.add(p)
        elif what == "start" and len(running) < self.n:
            self.count["starts"] += 1
            self.start(self.draw.choice([p for p in self.nodes if p not in running]))
        elif what == "snap" and running:
            self.snap(self.draw.choice(running))
        elif what == "cut":
            self.count["cuts"] += 1
            self.cut(*self.draw.sample(range(self.n), 2))
        elif what == "heal":
            self.heal()
        elif what == "vote":
            q, word = self.draw.randrange(self.n), self.draw.choice(["suspect", "join"])
            for p in self.draw.sample(range(self.n), self.draw.randint(1, self.n - 1)):
                if p != q and self.nodes[p].runs:
                    getattr(self, word)(p, q)
        elif what == "lie" and self.liars:
            p = self.draw.choice(sorted(self.liars))
            self.lie_to(p, self.draw.choice([q for q in self.nodes if q != p]), f"another {number}")
        time.sleep(self.draw.choice([0, 0.02, 0.2]))

    def kill_now(self, p):
        self.count["kills"] += 1
        self.kill(p)
        # what it had not delivered yet it may not have taken in
        own = {line.split()[6] for line in self.delivered(p)}
        self.given[p] = [text for text in self.given[p] if text.hex() in own]

    def lie_to(self, p, q, text):
        how = self.draw.choice(["another", "another", "withheld", "old"])
        if how == "another" and self.nodes[p].submitted:
            self.count["lies"] += 1
            self.lie(p, q, text)
        elif how == "withheld":
            self.network.withheld.add((p, q))
        elif how == "old" and self.network.old:
            self.count["old"] += 1
            self.network.hand_in(*self.draw.choice(self.network.old))

    def settle(self):
        """The network is whole, all run, and time goes on until nothing is missing, or for so many ticks."""
        self.heal()
        self.network.doomed.clear()
        self.network.withheld.clear()
        self.network.parts = {"loss": 0, "twice": 0, "late": 0}
        for p, it in self.nodes.items():
            if not it.runs:
                self.start(p)
        self.wait_until_open()
        for ticks in range(MOST_TICKS):
            time.sleep(TICK)
            if ticks > 10 and not self.missing():
                return
        self.count["late runs"] += 1

    def wait_until_open(self):
        """Until each node that was started has opened its journal, which may take long on a machine with much else to do."""
        until = time.monotonic() + MOST_SECONDS
        while not all(it.is_open for it in self.nodes.values()) and time.monotonic() < until:
            time.sleep(TICK)
        self.network.faults += [f"{p} was not opened in {MOST_SECONDS} seconds, and wrote last {self.heard[p][-2:]}"
                                for p, it in self.nodes.items() if not it.is_open]

    def missing(self):
        """Whether a correct node that was never out of the view lacks what another of them was given to send."""
        stayed = [p for p in self.nodes if p not in self.liars and all(str(p) in members for members in self.views())]
        texts = {text.hex() for p in stayed for text in self.given[p]}
        return any(texts - {line.split()[6] for line in self.delivered(p)} for p in stayed)

    def views(self):
        return [line.partition(" : ")[2].split() for lines in self.heard.values() for line in lines if line.startswith("view ")]

    def delivered(self, p):
        return [line for line in list(self.heard[p]) if line.startswith("deliver ")]

    # -- what must hold

    def faults(self):
        yield from self.network.faults
        of_audit = list(self.of_audit())
        if not self.count["unbounded"]:
            yield from self.disagreements()
        yield from of_audit

    def disagreements(self):
        messages, places = {}, {}
        for p in self.nodes:
            if p in self.liars:
                continue
            seen = []
            for line in self.delivered(p):
                x, k, s, l = map(int, line.split()[2:6])
                if messages.setdefault((x, s, l), line.split()[6]) != line.split()[6] or places.setdefault((x, s, l), k) != k:
                    yield f"{line}: another node delivered {messages[x, s, l]} at {places[x, s, l]}"
                seen.append((x, k))
            if seen != sorted(seen):
                yield f"{p} delivered out of order"
            if len({tuple(line.split()[2:6]) for line in self.delivered(p)}) < len(seen):
                yield f"{p} delivered a message twice"

    def begun(self, p, word, snapshot=""):
        """What a node of p says on its journal as it is, without a script."""
        journal = self.folder / "begun.journal"
        shutil.copyfile(self.folder / f"{p}.journal", journal)
        done = subprocess.run([self.program, word, journal], input=(self.kit.of(p) + snapshot).encode(), capture_output=True,
                              preexec_fn=self.nodes[p].network_of(), check=False)
        return done.returncode, done.stdout.decode()

    def begins_otherwise(self, p):
        if not self.nodes[p].snapshot:
            return
        by_node, by_snapshot = self.begun(p, "node"), self.begun(p, "resume", self.nodes[p].snapshot + "\n")
        if by_node[0] or by_node != by_snapshot:
            yield f"{p} begins by node with {by_node}, and from its snapshot with {by_snapshot}"

    def of_audit(self):
        data = self.kit.without_secrets().encode()
        for p in self.nodes:
            self.nodes[p].kill()
            if self.plant not in ("forget", "anew"):
                yield from self.begins_otherwise(p)
            if self.plant == "skip" and p == min(self.nodes.keys() - self.liars):
                continue
            journal = (self.folder / f"{p}.journal").read_bytes()
            yield from self.lost(p)
            data += f"journal {len(journal)}\n".encode() + journal
        correct = [p for p in self.nodes if p not in self.liars]
        done = subprocess.run([self.program, "audit", *map(str, correct)], input=data, capture_output=True, check=False)
        if done.stdout == b"stop 2 words\n":
            self.count["unaudited"] += 1
            return
        if done.returncode:
            yield f"the audit ended with {done.returncode}: {done.stdout.decode()}"
            return
        found = json.loads(done.stdout)
        views = [members for it in found["processes"] for members in it["views"]]
        bounded = all(len(self.liars.intersection(members)) <= (len(members) - 1) // 3 for members in views)
        self.count["unbounded"] += not bounded
        if found["bounded"] != bounded:
            yield f"the audit says bounded {found['bounded']}"
        yield from (f"the audit says {it} {found[it]}" for it in ("agree", "sound", "honest") if bounded and not found[it])
        yield from (f"the audit convicts {it['process']}" for it in found["convicted"] if it["process"] not in self.liars)
        self.count["convicted"] += len(found["convicted"])
        for it in found["processes"]:
            wrote = len(self.delivered(it["process"]))
            if it["delivered"] < wrote:
                yield f"the journal of {it['process']} has {it['delivered']} deliveries, and its node wrote {wrote}"


def one(number, words, counts):
    run = Run(number, words)
    try:
        run.open()
        for at in range(run.draw.randint(10, 30)):
            run.act(at)
        run.settle()
        time.sleep(2 * TICK)
        faults = list(run.faults())
    finally:
        run.close()
    counts.update(run.count)
    counts.update(withheld=run.network.counts["withheld"], leaves=len(run.network.leaves))
    for fault in faults:
        print(f"{number}: {fault}", flush=True)
    return bool(faults)


def late_program():
    """The program whose nodes send before an entry is in the file, built."""
    crate = pathlib.Path(__file__).resolve().parent.parent / "crates" / "late_writes"
    subprocess.run(["rt", "run"], cwd=crate, stdin=subprocess.DEVNULL, stdout=subprocess.DEVNULL, check=True)
    return str(crate / "out" / "late_writes")


def main():
    words = argparse.ArgumentParser(description=__doc__.partition("\n")[0])
    words.add_argument("number", type=int)
    words.add_argument("runs", type=int)
    words.add_argument("--program")
    words.add_argument("--show", action="store_true")
    words.add_argument("--plant", choices=["late", "forget", "anew", "skip"])
    words = words.parse_args()
    words.program = words.program or (late_program() if words.plant == "late" else str(group.TOP / "rampart"))
    signal.signal(signal.SIGTERM, lambda *_: sys.exit(143))
    counts, wrong = collections.Counter(), 0
    for number in range(words.number, words.number + words.runs):
        wrong += one(number, words, counts)
    told = ("kills", "starts", "resumes", "snap", "torn", "cuts", "lies", "old", "withheld", "leaves", "deliver", "view", "liar", "refused", "spent",
            "convicted", "late runs", "unbounded", "unaudited")
    print(f"{words.runs} runs, {wrong} wrong; {', '.join(f'{counts[it]} {it}' for it in told)}")
    sys.exit(1 if wrong else 0)


if __name__ == "__main__":
    try:
        main()
    except KeyboardInterrupt:
        sys.exit(130)
