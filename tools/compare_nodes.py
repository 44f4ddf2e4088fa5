#!/usr/bin/env python3
"""Compares whole runs of a node with those of another implementation.

    python3 tools/compare_nodes.py FROM TO FOLDER

FOLDER has the other implementation, in Python: node.py with `Host`, a node that takes an input, a disk and a link, and its `Stop`;
snapshots.py with `read_image`, `write_image` and `read_snap_line`; devices.py with `MemDisk`, `MemLink`, `Failed` and `Stopped`; frames.py with `seal`; journals.py with `entry_at`, `entry_bytes` and
`JournalFault`; kits.py with `Lines`, `make_kit`, `public_part` and `write_kit`; signatures.py with `make_signer`; and audit.py. From each
number from FROM up to TO are drawn: a kit of 1 to 16 members; nodes, each with a journal of its own, that host one to four of its
processes; and openings of these nodes one after the other, each with a script, and with the datagrams that wait: those that were sent
before, late, lost or twice, and hostile ones, of processes that lie and of strangers, cut, changed or tagged with another key. Between
two openings a journal may be damaged, be that of another node, or get an entry that its process cannot have written. In an opening calls
of the link, the disk, the input and the output fail, and some are cut off at a write or a sync of the disk; the next one then begins with
one of three images of the disk. Compared are the status, all that was written, the journal or the three images, and all datagrams that
were sent. In the scripts of every third number `snap` is between other lines, and nodes are opened by `resume` too: from a line that `snap`
wrote, now or long ago, of this node or another, or from one that is damaged, of another moment, or has an image with one thing changed.
Ours are the answers of the program `interop` to `run WORDS INPUT JOURNAL FAILS COMING STOP`. Where the snapshot is one that `snap` wrote on
this journal and nothing fails, what `resume` answers is also compared with what `node` answers without it, but for the number of a line.

Where the length or a read of the disk is to fail, the other one may have made fewer or more such calls up to the same place: then ours must
be one of its answers where some such call fails, or none. Each difference is printed, and at the end how many openings there were, how they
ended, how often each line came, and what was asked. The status is 1 where anything differs.
"""

import collections
import copy
import random
import sys

import audits
from draw_snapshots import Snapshot, Snapshots
from interop import build, run, word
from schedules import KEEP, PLACE, READY, RENEW, WANT, add, at_place, at_rank, bundle, echo, remove, u16, u8, value

PIECE, LINE_LIMIT = 16384, 70000
NUMBERS_AT_ONCE = 20
READS = ("len", "read")
DISK_FAILED = "stop 5 disk"


class SourceFailed(Exception):
    pass


class SinkFailed(Exception):
    pass


class Theirs(audits.Theirs):
    def __init__(self, folder):
        super().__init__(folder)
        import frames
        import snapshots

        self.frames, self.snapshots = frames, snapshots
        self.kits.make_signer = self.signer
        # each node has a signer of its own, of which nothing is used
        self.node.make_signer = lambda secret: copy.copy(self.signer(secret))
        theirs = self

        class Lines(theirs.kits.Lines):
            """Lines of an input that is read in pieces: some of the reads fail."""

            def __init__(self, data, failing):
                super().__init__(data)
                self.failing, self.reads, self.seen = failing, 0, 0

            def piece(self):
                """Whether there is one."""
                self.reads += 1
                if self.reads in self.failing:
                    raise SourceFailed
                more = min(PIECE, len(self.data) - self.seen)
                self.seen += more
                return more > 0

            def at_end(self):
                return self.seen == self.at and not self.piece()

            def next(self, limit=LINE_LIMIT):
                while self.seen - self.at <= limit and self.data.find(b"\n", self.at, self.seen) < 0:
                    if not self.piece():
                        break
                return super().next(limit)

        class Host(theirs.node.Host):
            """A node whose input and output fail as they are told to. What it says goes out in one write: of the hosts at the beginning, of
            each turn, of each receive that ends, and each other line."""

            def __init__(self, data, disk, link, reads, writes):
                super().__init__(data, disk, link, "batch")
                self.lines = Lines(data, reads)
                self.failing, self.writes, self.gone, self.in_turn = writes, 0, 0, False

            def flush(self):
                if self.gone < len(self.out):
                    self.writes += 1
                    if self.writes in self.failing:
                        del self.out[self.gone:]
                        raise SinkFailed
                    self.gone = len(self.out)

            def write(self, line):
                super().write(line)
                is_host, is_last = line.startswith("host "), len(self.out) == len(self.kit.hosted()) if self.kit else True
                if not self.in_turn and not line.startswith("fault ") and (not is_host or is_last):
                    self.flush()

            def turn(self, core, event):
                self.in_turn = True
                super().turn(core, event)
                self.in_turn = False
                self.flush()

            def told(self):
                return "".join(line + "\n" for line in self.out[:self.gone]).encode()

            def ended(self, by_snapshot):
                """The status, or None where the disk was cut off."""
                try:
                    self._run(by_snapshot)
                    return 0
                except theirs.devices.Stopped:
                    return None
                except SinkFailed:
                    return 4
                except SourceFailed:
                    line, status = "stop 3 read", 3
                except theirs.node.Stop as stop:
                    line, status = stop.line, stop.status
                except theirs.devices.Failed:
                    line, status = DISK_FAILED, 5
                del self.out[self.gone:]
                self.out.append(line)
                try:
                    self.flush()
                except SinkFailed:
                    pass
                return status

        self.host = Host


class Opening:
    """One run of a node: what is asked, and what comes of it."""

    def __init__(self, words, data, journal, fails, coming, stop):
        self.words, self.data, self.journal, self.fails, self.coming, self.stop = words, data, journal, fails, coming, stop
        # of one by `resume`, the same by `node`, where both say the same
        self.by_node = None

    def line(self):
        fails = ",".join("%s:%d" % fail for fail in self.fails) or "-"
        coming = ",".join("%d:%s" % (port, word(data)) for port, data in self.coming) or "-"
        stop = "%s:%d" % self.stop if self.stop else "-"
        return " ".join(["run", word(self.words.encode()), word(self.data), word(self.journal), fails, coming, stop])

    def carried_out(self, theirs, fails):
        """The other one's answer, where these calls fail; its journal or images; what it sent, and what is left of what came."""
        of = lambda kinds: {fail for fail in fails if fail[0] in kinds}
        numbers = lambda kind: {n for what, n in fails if what == kind}
        stop = self.stop + ("all",) if self.stop else None
        disk = theirs.devices.MemDisk(self.journal, of(("len", "read", "write", "sync")), stop)
        link = theirs.devices.MemLink(of(("bind", "send", "recv")))
        for port, data in self.coming:
            link.coming.setdefault(port, []).append(data)
        if self.words.split(" ")[0] in ("node", "resume") and self.words.count(" ") == 1:
            host = theirs.host(self.data, disk, link, numbers("source"), numbers("sink"))
            status = host.ended(self.words.startswith("resume"))
            told, calls = host.told(), disk.counts
        else:
            told, status, calls = b"stop 2 words\n", 2, disk.counts
            if ("sink", 1) in fails:
                told = b""
        sent = ",".join("%d:%s" % (port, word(data)) for port, data in link.sent) or "-"
        images = [disk.image(kind) for kind in ("none", "all", "a5")]
        if status is None:
            answer = " ".join(["stopped", word(told), "-", sent, *map(word, images)])
        else:
            answer, images = " ".join([str(status), word(told), word(bytes(disk.data)), sent]), [bytes(disk.data)]
        return answer, told.decode(), images, link, calls

    def answers(self, theirs):
        """What the other one answers, and each answer that ours may be."""
        first = self.carried_out(theirs, self.fails)
        kept = [fail for fail in self.fails if fail[0] not in READS]
        if len(kept) == len(self.fails):
            return first, {first[0]}
        calls = self.carried_out(theirs, kept)[4]
        others = [[]] + [[(kind, n)] for kind in READS for n in range(1, calls[kind] + 1)]
        return first, {self.carried_out(theirs, kept + more)[0] for more in others}


class Node:
    def __init__(self, hosted, kit):
        self.hosted, self.kit, self.journal, self.snapshots = hosted, kit, b"", []


class Drawing(audits.Drawing):
    """Openings of nodes, from a number."""

    def __init__(self, number, theirs):
        self.number, self.draw, self.theirs = number, random.Random(number), theirs
        tree = self.draw.random() < 0.03
        members = self.draw.choice([1, 2, 3] if tree else [1, 1, 2, 2, 3, 4, 4, 4, 4, 5, 7, 16])
        roster = members + self.draw.choice([0, 0, 0, 1, 2])
        plan = self.draw.choice(audits.TREES) if tree else ("plain", self.draw.choice([100, 100, 100, 100, 7]))
        self.seed = bytes([number % 3 if tree else number % 256]) * 32
        self.kit = theirs.kits.make_kit(members, roster, plan, self.seed)
        self.roster = list(range(roster))
        liars = self.draw.choice([0, 0, 0, 0, 1, (members - 1) // 3, roster // 2, roster - 1])
        self.correct = sorted(self.draw.sample(self.roster, max(1, roster - liars)))[:12]
        self.liars = [p for p in self.roster if p not in self.correct]
        self.waiting, self.late = [], []
        self.drawn_snapshots = Snapshots(self)

    # -- nodes

    def nodes(self):
        left, nodes = list(self.correct), []
        self.draw.shuffle(left)
        while left:
            share = sorted(left[:self.draw.choice([1, 2, 3, 4, 4, 4])])
            left = [p for p in left if p not in share]
            nodes.append(Node(share, self.kit_of(share)))
        return nodes

    def kit_of(self, share):
        kit = copy.copy(self.kit)
        kit.secrets = {p: self.kit.secrets[p] for p in share}
        kit.pairs = {pair: key for pair, key in self.kit.pairs.items() if pair[0] in share}
        return kit

    # -- inputs

    def whole_front(self, node):
        return self.theirs.kits.write_kit(node.kit) + b"go\n"

    def front(self, node):
        """The kit's lines, rarely damaged."""
        text = self.theirs.kits.write_kit(node.kit)
        lines, at = text.splitlines(True), self.draw.randrange(text.count(b"\n"))
        damage = self.draw.randrange(150)
        if damage == 0:
            return b"".join(lines[:at] + lines[at + 1:]) + b"go\n"
        if damage == 1:
            return b"".join(lines[:at + 1] + lines[at:]) + b"go\n"
        if damage == 2:
            place = self.draw.randrange(len(text))
            return text[:place] + self.draw.randbytes(1) + text[place + 1:] + b"go\n"
        if damage == 3:
            return self.theirs.kits.public_part(node.kit) + b"go\n"
        return text + (self.draw.choice([b"", b"go", b"go \n"]) if damage == 4 else b"go\n")

    def payload(self):
        return self.draw.randbytes(self.draw.choice([0, 1, 1, 2, 2, 40, 1024]) if not self.often(0.03) else self.draw.choice([1025, 5000]))

    def other_process(self):
        return self.draw.choice(self.roster + [p for p in (0, 63, 64) if self.often(0.1)])

    def line_of(self, p):
        """A line for this process."""
        what = self.draw.randrange(100)
        if what < 62:
            return "%d recv %d" % (p, self.draw.choice([1, 2, 8, 8, 8, 20, 100, 1000]))
        if what < 82:
            return "%d submit %s" % (p, word(self.payload()))
        if what < 89:
            return "%d suspect %d" % (p, self.other_process())
        if what < 92:
            return "%d join %d" % (p, self.other_process())
        return "%d %s" % (p, self.draw.choice(["renew", "tick", "tick", "tick"]))

    def odd_line(self, p):
        """Mostly no line of a script."""
        return self.draw.choice([
            "", "x", "%d" % p, "%d " % p, "0%d tick" % p, "%d tick " % p, "%d  tick" % p, "%d recv 0" % p, "%d recv 1001" % p,
            "%d recv 08" % p, "%d recv" % p, "%d submit" % p, "%d submit 6g" % p, "%d submit 6A" % p, "%d submit 616" % p,
            "%d suspect 64" % p, "%d join -" % p,
            "%d suspect 01" % p, "%d renew 1" % p, "64 tick", "63 tick", "-1 tick", "+%d tick" % p, "%d TICK" % p, "%d tick\r" % p, "snap ",
            "\xff", "%d \xe4" % p, "%d accuse 1" % p, "host %d" % p,
            "%d submit %s" % (p, "61" * self.draw.choice([34990, 34995, 35000, 60000]))])

    def script(self, node):
        lines = []
        for _ in range(self.draw.choice([0, 1, 2, 4, 6, 10])):
            p = self.draw.choice(node.hosted)
            lines.append(self.line_of(p))
            if self.often(0.5):
                rounds = self.draw.choice([1, 3, 6, 10])
                lines += ["%d recv %d" % (q, self.draw.choice([8, 20])) for _ in range(rounds) for q in node.hosted]
        if self.number % 3 == 0:
            for _ in range(self.draw.choice([1, 1, 1, 2, 3])):
                lines.insert(self.draw.randrange(len(lines) + 1), "snap")
        if self.often(0.04):
            lines.insert(self.draw.randrange(len(lines) + 1), self.odd_line(node.hosted[0]))
        text = "".join(line + "\n" for line in lines).encode("latin-1")
        return text[:-1] if self.often(0.02) else text

    # -- the outside

    def sealed(self, p, q, frame):
        key = self.kit.pairs.get((p, q), bytes(32))
        return self.theirs.frames.seal(self.kit.group, p, q, key, frame)

    def shown(self, of_view):
        """A frame in which all liars say what makes a message delivered or a view decided, where they are a quorum."""
        signers = [p for p in self.liars if p in self.kit.genesis] or self.liars
        view, place, message = 0, 0, (self.kit.genesis[0], 0)
        if self.often(0.4):
            view, place = self.draw.choice([0, 1, 2]), self.draw.choice([0, 1, 2])
            message = (self.draw.choice(self.roster), self.draw.choice([0, 0, 1]))
        if not of_view:
            said = [echo(*message, b"a", view)] + [at_place(kind, place, [message], view) for kind in (PLACE, KEEP)]
        else:
            update = self.draw.choice([RENEW, RENEW, remove(self.draw.choice(self.roster)), add(self.draw.choice(self.roster))])
            said = [at_rank(READY, self.draw.choice([0, 0, 1]), value(update, self.draw.choice([0, 1, 2, place])), view)]
        return bundle([self.claim(p, statement) for statement in said for p in signers])

    def hostile(self, q):
        """A datagram to this process."""
        liar = self.draw.choice(self.liars or self.roster)
        what = self.draw.randrange(12)
        if what < 5 and self.liars:
            return self.sealed(liar, q, self.shown(self.often(0.4)) if self.often(0.5) else self.lie())
        if what == 5:
            wanted = [u16(self.draw.choice([0, 0, 1, 1023, 1024])) for _ in range(2)]
            return self.sealed(liar, q, u8(1) + u8(WANT) + b"".join(wanted))
        if what == 6:
            return self.draw.randbytes(self.draw.choice([0, 1, 53, 54, 100, 61440, 61441]))
        data = bytearray(self.sealed(liar, q, self.lie() if self.liars else self.draw.randbytes(9)))
        if what == 7:
            data = data[:self.draw.randrange(len(data) + 1)]
        elif what == 8:
            data[self.draw.randrange(len(data))] ^= self.draw.choice([1, 2, 128, 255])
        elif what == 9:
            data = bytearray(self.theirs.frames.seal(self.kit.group, self.draw.choice([q, liar, 63]), q, bytes(32), b"x"))
        elif what == 10:
            data = bytearray(self.theirs.frames.seal(bytes(16), liar, q, self.kit.pairs.get((liar, q), bytes(32)), b""))
        elif self.often(0.5):
            data = bytearray(self.sealed(liar, self.draw.choice(self.roster), self.draw.randbytes(5)))
        return bytes(data)

    def arriving(self, node):
        """What waits for this node: of what was sent, mostly all in order, and hostile datagrams among it."""
        ports = {self.kit.ports[p]: p for p in node.hosted}
        mine = [datagram for datagram in self.waiting if datagram[0] in ports]
        self.waiting = [datagram for datagram in self.waiting if datagram[0] not in ports]
        for datagram in mine:
            if self.often(0.1):
                self.late.append(datagram)
        mine = [datagram for datagram in mine if not self.often(0.04)]
        mine += [datagram for datagram in self.late if datagram[0] in ports and self.often(0.5)]
        if self.often(0.2):
            self.draw.shuffle(mine)
        for _ in range(self.draw.choice([0, 0, 0, 1, 2, 5])):
            q = self.draw.choice(node.hosted)
            mine.insert(self.draw.randrange(len(mine) + 1), (self.kit.ports[q], self.hostile(q)))
        if self.liars and self.often(0.2):
            q, liar = self.draw.choice(node.hosted), self.draw.choice(self.liars)
            mine += [(self.kit.ports[q], self.sealed(liar, q, self.shown(of_view))) for of_view in (False, True)]
        return mine

    def failing(self, node):
        most = {"bind": len(node.hosted) + 1, "send": 30, "recv": 30, "len": 2, "read": 8, "write": 24, "sync": 24, "source": 3, "sink": 20}
        if not self.often(0.3):
            return []
        few = self.draw.choice([1, 1, 2, 3])
        kinds = [self.draw.choice([*most, "send", "recv"]) for _ in range(few)]
        return [(kind, self.draw.choice([1, 2, self.draw.randint(1, most[kind])])) for kind in kinds]

    def cut(self):
        if not self.often(0.2):
            return None
        return self.draw.choice(["write", "sync"]), self.draw.choice([1, 2, 3, 4, self.draw.randint(1, 40)])

    def words(self):
        other = ["node", "node a b", "", "Node a", "gen -1", "node  a", " node a", "resume", "resume a b", "Resume a"]
        return self.draw.choice(other) if self.often(0.02) else "node " + self.draw.choice(["a", "journal", "\u00e4/b"])

    # -- journals between openings

    def kept(self, journal, nodes):
        """The journal with which a node is opened again."""
        what = self.draw.randrange(60)
        if what < 4 and len(journal) > audits.HEADER:
            return self.changed_journal(journal)
        if what == 4:
            return self.other(journal) if len(journal) > audits.HEADER else self.draw.randbytes(self.draw.choice([1, 60, 61, 62]))
        if what == 5:
            return self.draw.choice(nodes).journal
        if what == 6:
            return journal[:self.draw.randrange(len(journal) + 1)]
        if what == 7 and journal:
            at = self.draw.randrange(len(journal))
            return journal[:at] + bytes([journal[at] ^ self.draw.randint(1, 255)]) + journal[at + 1:]
        if what == 8:
            return journal + self.draw.randbytes(self.draw.choice([1, 3, 40]))
        if what == 9 and journal[:4] == b"RPJ2" and len(journal) == audits.HEADER + 1:
            return b"RPJ1" + journal[4:]
        return journal

    def changed_journal(self, journal):
        try:
            return self.changed(journal)
        except self.theirs.journals.JournalFault:
            return journal

    # -- openings

    def opening(self, node, nodes):
        """An opening of this node, and whether its processes begin as the journal says."""
        words, front, script = self.words(), self.front(node), self.script(node)
        outside = node.journal, self.failing(node), self.arriving(node), self.cut()
        if self.number % 3 or not words.startswith("node ") or self.often(0.4 if node.snapshots else 0.9):
            return Opening(words, front + script, *outside), True
        snapshot = self.drawn_snapshots.one(node, nodes)
        line = (snapshot.line + ("" if self.often(0.01) else "\n")).encode()
        opening = Opening(words.replace("node", "resume"), front + line + script, *outside)
        is_true = snapshot.is_of(node.journal)
        if is_true and line.endswith(b"\n") and not opening.fails and front == self.whole_front(node):
            opening.by_node = Opening(words, front + script, *outside)
        return opening, is_true

    def openings(self):
        """Each opening, with the other one's answers."""
        nodes = self.nodes()
        for _ in range(self.draw.choice([1, 2, 3, 4, 6, 8])):
            node = self.draw.choice(nodes)
            opening, begins_truly = self.opening(node, nodes)
            (answer, told, images, link, _), any_of = opening.answers(self.theirs)
            yield opening, answer, told, any_of
            written = [line for line in told.splitlines() if line.startswith("snap ") and not line.startswith("snap large")]
            node.snapshots += [Snapshot(line, begins_truly) for line in written]
            self.waiting += [(port, datagram) for port, queue in link.coming.items() for datagram in queue]
            hosted_ports = {self.kit.ports[p] for p in self.correct}
            self.waiting = [datagram for datagram in self.waiting if datagram[0] in hosted_ports]
            fresh = answer.startswith("8 ") and self.often(0.6)
            node.journal = b"" if fresh else self.kept(self.draw.choice(images), nodes)


class Reached:
    """What came up in the openings."""

    def __init__(self):
        self.ends, self.lines, self.kinds = collections.Counter(), collections.Counter(), collections.Counter()

    def note(self, opening, answer, told):
        status = answer.split(" ")[0]
        last = told.splitlines()[-1].split(" ") if told else []
        self.ends[" ".join([status] + (last[2:3] if last[:1] == ["stop"] else []))] += 1
        for line in told.splitlines():
            words = line.split(" ")
            if words[0] in ("drop", "refused"):
                self.lines[words[0] + " " + words[2]] += 1
            elif words[0] in ("deliver", "view", "liar", "spent", "halted", "fault", "recv", "host", "snap"):
                self.lines[words[0]] += 1
        for kind, _ in opening.fails:
            self.kinds["failing " + kind] += 1
        if opening.words.startswith("resume "):
            self.kinds["resume " + ("as node" if opening.by_node else "ended %s" % status)] += 1
        if opening.journal and status != "2":
            self.kinds["journal opened again"] += 1
        if opening.stop:
            self.kinds["cut"] += 1

    def print(self):
        for counted in (self.ends, self.lines, self.kinds):
            print(", ".join("%s %d" % item for item in sorted(counted.items())))


def a_line_later(answer):
    """The answer of a node whose kit is followed by one line more, before its script."""
    words = answer.split(" ")
    lines = bytes.fromhex(words[1].replace("-", "")).decode().splitlines()
    last = lines[-1].split(" ") if lines else []
    if words[0] == "7" and last[:3] == ["stop", "7", "line"]:
        lines[-1] = "stop 7 line %d" % (int(last[3]) + 1)
    words[1] = word("".join(line + "\n" for line in lines).encode())
    return " ".join(words)


def compare_all(asked):
    """How many answers differ."""
    lines = [(number, opening, opening.line(), wanted) for number, opening, wanted in asked]
    lines += [(number, opening, opening.by_node.line(), None) for number, opening, _ in asked if opening.by_node]
    status, told = run("".join(line + "\n" for _, _, line, _ in lines))
    ours = told.split("\n")[:-1]
    different = 0 if status == 0 and len(ours) == len(lines) else 1
    if different:
        print("status %d, %d answers to %d lines" % (status, len(ours), len(lines)))
    of_opening = {id(opening): mine for (_, opening, _), mine in zip(asked, ours)}
    for (number, opening, line, wanted), mine in zip(lines, ours):
        if wanted is None:
            wanted, mine = {a_line_later(mine)}, of_opening[id(opening)]
        if mine not in wanted:
            different += 1
            print("number %d: %s\n  %s, not %s" % (number, line, mine, " or ".join(sorted(wanted))))
    return different


def main(first, end, folder):
    theirs, reached = Theirs(folder), Reached()
    build()
    count, different, asked = 0, 0, []
    for number in range(first, end):
        for opening, answer, told, any_of in Drawing(number, theirs).openings():
            if len(opening.line()) > 1000000:
                continue
            reached.note(opening, answer, told)
            asked.append((number, opening, any_of))
        if len(asked) >= NUMBERS_AT_ONCE or number == end - 1:
            count, different, asked = count + len(asked), different + compare_all(asked), []
    print("%d openings, %d different" % (count, different))
    reached.print()
    return 1 if different else 0


if __name__ == "__main__":
    if len(sys.argv) != 4:
        sys.exit(__doc__)
    sys.exit(main(int(sys.argv[1]), int(sys.argv[2]), sys.argv[3]))
