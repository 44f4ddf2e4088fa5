#!/usr/bin/env python3
"""Runs a group of nodes, each a process of its own, over a network that loses, repeats and delays what they send.

    python3 tools/group.py N [--guards] [--keys PLAN] [--loss PART] [--twice PART] [--late PART] [--seed NUMBER] [--tick SECONDS]
                             [--folder FOLDER] [--program PROGRAM] [--direct]

N is the number of processes, 1 to 16, all of them members of view 0; PLAN is what `rampart keygen` takes for keys (plain:10000). Each node
has a journal of its own, FOLDER/P.journal; without --folder they lie in a folder that goes at the end. What a node writes is shown as it
comes, after its number. With --guards the nodes are guards: one that holds evidence of a liar votes for a view without it. A word at the
prompt, or a line of standard input:

    submit P TEXT    process P is given a message to send
    join P Q         P asks for Q as a member; suspect P Q, for a view without Q
    kill P           ends the node at once (SIGKILL); start P opens its journal again
    snap P           P writes a snapshot, and the last one is kept here; resume P opens its journal from that one
    cut P Q          nothing passes between P and Q any more; heal mends all cuts
    lie P Q TEXT     Q is handed TEXT as P's last message, signed with P's key: P has then signed two texts under one number
    show             each node's view, members and deliveries, and what the network did
    audit P ..       what all journals say, and who is convicted by them, where these processes are taken as correct (none named: all)
    until P LINE     for scripts: waits until P, or each node that runs where P is `all`, has written this line, or a line that begins so,
                     without the process's number after its first word (`until all view 1`); wait SECONDS
    quit             as the end of the input

PART is a part of the datagrams, 0 to 1: those that are lost, those that come twice, and those that come late, and so out of order. The
same --seed draws the same numbers, though not the same run: nodes are as fast as they are.

Each node lives in a network of its own, in which it alone has its port, and this program has those of the others: so all have one kit, and
their journals can be audited together. That needs Linux, and a user who may make namespaces. With --direct all nodes share the machine's
loopback, and nothing is lost but by the system; ports that others use end a node with `stop 6 link`.
"""
import argparse
import collections
import ctypes
import fcntl
import heapq
import hmac
import os
import pathlib
import random
import selectors
import shutil
import signal
import socket
import struct
import subprocess
import sys
import tempfile
import threading
import time

import schedules

TOP = pathlib.Path(__file__).resolve().parent.parent
NEW_USER, NEW_NET = 0x10000000, 0x40000000
ROOM = 65536
# that a script waits for a line
MOST_SECONDS = 60
LIBC = ctypes.CDLL(None, use_errno=True)


# ---- a network of its own


def unshare():
    """Moves this process to a network of its own, whose loopback is up."""
    if LIBC.unshare(NEW_NET if os.geteuid() == 0 else NEW_USER | NEW_NET) != 0:
        raise OSError(ctypes.get_errno(), "no network namespace can be made (try --direct)")
    with socket.socket(socket.AF_INET, socket.SOCK_DGRAM) as it:
        # flags of an interface: up and running
        fcntl.ioctl(it, 0x8914, struct.pack("16sh", b"lo", 0x1 | 0x40))


def enter(process):
    """For a child that is to live in that process's network."""
    for kind in ("net",) if os.geteuid() == 0 else ("user", "net"):
        space = os.open(f"/proc/{process}/ns/{kind}", os.O_RDONLY)
        if LIBC.setns(space, 0) != 0:
            raise OSError(ctypes.get_errno(), "setns")
        os.close(space)


def inside(fd, own, others):
    """Has the ports of the others in the network of one node: what is sent to them goes to the group's program, and what that hands in goes
    to the node's own port. A message to and fro is a port and a datagram."""
    unshare()
    outside = socket.socket(fileno=fd)
    waits = selectors.DefaultSelector()
    waits.register(outside, selectors.EVENT_READ, None)
    for port in others:
        it = socket.socket(socket.AF_INET, socket.SOCK_DGRAM)
        it.bind(("127.0.0.1", port))
        waits.register(it, selectors.EVENT_READ, port)
    outside.send(b"ready")
    sender = socket.socket(socket.AF_INET, socket.SOCK_DGRAM)
    while True:
        for key, _ in waits.select():
            try:
                data = key.fileobj.recv(ROOM)
            except ConnectionResetError:
                # the group's program has ended
                return
            if key.data is not None:
                outside.send(struct.pack(">H", key.data) + data)
            elif data:
                sender.sendto(data, ("127.0.0.1", own))
            else:
                return


class Network:
    """Passes datagrams between the nodes' networks, as it is told."""

    def __init__(self, ports, parts, seed):
        self.ports, self.parts, self.draw = ports, parts, random.Random(seed)
        self.of_port = {port: p for p, port in ports.items()}
        self.cuts, self.late, self.counts, self.number = set(), [], collections.Counter(), 0
        self.lock, self.ends, self.processes = threading.Lock(), {}, {}

    def open(self):
        for p in self.ports:
            ours, theirs = socket.socketpair(socket.AF_UNIX, socket.SOCK_SEQPACKET)
            for it in (ours, theirs):
                it.setsockopt(socket.SOL_SOCKET, socket.SO_SNDBUF, 1 << 22)
            others = [str(port) for q, port in self.ports.items() if q != p]
            words = [sys.executable, __file__, "--inside", str(theirs.fileno()), str(self.ports[p]), *others]
            self.processes[p] = subprocess.Popen(words, pass_fds=(theirs.fileno(),), stdin=subprocess.DEVNULL, start_new_session=True)
            theirs.close()
            self.ends[p] = ours
        for p, it in self.ends.items():
            it.settimeout(10)
            if it.recv(ROOM) != b"ready":
                raise OSError(f"the network of node {p} was not made (try --direct)")
            it.settimeout(None)
        threading.Thread(target=self.pass_on, daemon=True).start()

    def pass_on(self):
        waits = selectors.DefaultSelector()
        for p, it in self.ends.items():
            waits.register(it, selectors.EVENT_READ, p)
        while True:
            with self.lock:
                pause = max(0.0, self.late[0][0] - time.monotonic()) if self.late else None
            try:
                for key, _ in waits.select(pause):
                    told = key.fileobj.recv(ROOM)
                    if not told:
                        return
                    self.take(key.data, self.of_port[struct.unpack(">H", told[:2])[0]], told[2:])
                self.let_go()
            except OSError:
                # the group ends
                return

    def take(self, p, q, datagram):
        with self.lock:
            self.counts["sent"] += 1
            if (min(p, q), max(p, q)) in self.cuts:
                self.counts["cut"] += 1
                return
            if self.draw.random() < self.parts["loss"]:
                self.counts["lost"] += 1
                return
            copies = 1
            if self.draw.random() < self.parts["twice"]:
                self.counts["twice"] += 1
                copies = 2
            for _ in range(copies):
                late = self.draw.random() < self.parts["late"]
                self.counts["late"] += late
                self.wait(q, datagram, self.draw.uniform(0.02, 0.5) if late else 0)

    def wait(self, q, datagram, seconds):
        self.number += 1
        heapq.heappush(self.late, (time.monotonic() + seconds, self.number, q, datagram))

    def hand_in(self, q, datagram):
        """A datagram that no node sent."""
        self.ends[q].send(datagram)

    def let_go(self):
        with self.lock:
            while self.late and self.late[0][0] <= time.monotonic():
                _, _, q, datagram = heapq.heappop(self.late)
                self.ends[q].send(datagram)

    def close(self):
        for it in self.ends.values():
            with_no_error(it.shutdown, socket.SHUT_RDWR)
            it.close()
        for it in self.processes.values():
            it.kill()
            it.wait()


def with_no_error(call, *words):
    try:
        call(*words)
    except OSError:
        pass


# ---- kits


class Kit:
    """The lines of a kit of all processes."""

    def __init__(self, text):
        lines = text.splitlines()
        first = next(at for at, line in enumerate(lines) if line.startswith("host "))
        self.public, secret = lines[:first], lines[first:]
        self.ports = {int(words[1]): int(words[2]) for words in map(str.split, self.public) if words[0] == "port"}
        self.group = bytes.fromhex(next(line.split()[1] for line in self.public if line.startswith("group ")))
        self.keys = {int(words[1]): bytes.fromhex(words[2]) for words in map(str.split, self.public) if words[0] == "key"}
        self.pairs = {(int(w[1]), int(w[2])): bytes.fromhex(w[3]) for w in map(str.split, secret) if w[0] == "pair"}
        self.secret, self.is_plain = secret, "scheme plain" in self.public

    def of(self, p):
        """The kit of one process: all that is public, and its own secrets."""
        own = [line for line in self.secret if line.split()[0] in ("host", "pair") and int(line.split()[1]) == p]
        return "".join(f"{line}\n" for line in [*self.public, *own, "go"])

    def without_secrets(self):
        return "".join(f"{line}\n" for line in [*self.public, "go"])

    def datagram(self, p, q, frame):
        data = b"RPD1" + self.group + bytes([p, q]) + frame
        return data + hmac.digest(self.pairs[p, q], data, "sha256")


# ---- nodes


def write_to(child, text):
    try:
        child.stdin.write(text)
        child.stdin.flush()
    except (OSError, ValueError):
        pass


class Node:
    """One process: its node, while it runs, and what the node said."""

    def __init__(self, group, p):
        self.group, self.p = group, p
        self.child = None
        # whether the node that was started last has opened its journal and its port
        self.is_open = False
        self.view, self.members, self.delivered, self.submitted = 0, "", 0, 0
        self.texts, self.wrote = {}, []
        # the line of its last snapshot
        self.snapshot = None

    @property
    def runs(self):
        return self.child is not None and self.child.poll() is None

    def network_of(self):
        """What a child does that is to live in the node's network."""
        inside_of = self.group.network and self.group.network.processes[self.p].pid
        return (lambda: enter(inside_of)) if inside_of else None

    def start(self, snapshot=None):
        """Opens the journal: from the snapshot of this line, where there is one."""
        word = "resume" if snapshot else self.group.word
        child = subprocess.Popen(
            [self.group.program, word, str(self.group.folder / f"{self.p}.journal")],
            stdin=subprocess.PIPE, stdout=subprocess.PIPE, stderr=subprocess.STDOUT, text=True, bufsize=1,
            preexec_fn=self.network_of(), start_new_session=True)
        self.asked = self.ticked = time.monotonic()
        self.waits = self.is_open = False
        # before the node is fed lines of a script
        write_to(child, self.group.kit.of(self.p) + (f"{snapshot}\n" if snapshot else ""))
        self.child = child
        threading.Thread(target=self.listen, args=(child,), daemon=True).start()

    def line(self, text):
        write_to(self.child, f"{self.p} {text}\n")

    def listen(self, child):
        for line in child.stdout:
            self.hear(line.rstrip("\n"))
        status = child.wait()
        if not self.group.ends:
            self.group.say(self.p, "killed" if status == -signal.SIGKILL else f"ended with status {status}")

    def hear(self, line):
        words = line.split()
        if words[:2] == ["recv", str(self.p)]:
            self.waits = False
            self.asked = 0 if words[2] == "64" else time.monotonic()
            return
        if words[0] == "host":
            self.is_open, self.view, self.delivered = True, int(words[3]), int(words[5])
        elif words[0] == "view":
            self.view, self.members, self.submitted = int(words[2]), line.partition(" : ")[2], 0
        elif words[0] == "deliver":
            self.delivered += 1
        elif words[0] == "snap" and words[1] != "large":
            self.snapshot, line = line, f"snap {words[1][:8]} .. ({len(words[1]) // 2} bytes)"
        self.wrote.append(words[:1] + words[2:])
        self.group.say(self.p, line)

    def feed(self, now):
        """Asks for what has come, and says now and then that time has passed."""
        if not self.runs:
            return
        if now - self.ticked > self.group.tick:
            self.ticked = now
            self.line("tick")
        if not self.waits and now - self.asked > 0.01:
            self.waits = True
            self.line("recv 64")

    def has_written(self, words):
        return any(line[: len(words)] == words for line in list(self.wrote))

    def kill(self):
        if self.runs:
            self.child.kill()
            self.child.wait()


class Group:
    def __init__(self, words):
        self.program, self.tick, self.word = words.program, words.tick, "guard" if words.guards else "node"
        self.lock = threading.Lock()
        seed = f"{words.seed:064x}"
        order = [self.program, "keygen", str(words.n), str(words.n), words.keys, seed]
        made = subprocess.run(order, capture_output=True, text=True, check=False)
        if made.returncode:
            raise SystemExit(f"keygen ended with {made.returncode}: {made.stdout}{made.stderr}")
        self.kit = Kit(made.stdout)
        self.temporary = None if words.folder else tempfile.mkdtemp(prefix="rampart-group-")
        self.folder = pathlib.Path(words.folder or self.temporary)
        self.folder.mkdir(parents=True, exist_ok=True)
        parts = {"loss": words.loss, "twice": words.twice, "late": words.late}
        self.network = None if words.direct else self.make_network(parts, words.seed)
        self.nodes = {p: Node(self, p) for p in sorted(self.kit.ports)}
        self.ends = False

    def make_network(self, parts, seed):
        return Network(self.kit.ports, parts, seed)

    def say(self, p, line):
        with self.lock:
            print(f"{p}| {line}", flush=True)

    def open(self):
        if self.network:
            self.network.open()
        for it in self.nodes.values():
            it.start()
        threading.Thread(target=self.feed, daemon=True).start()

    def feed(self):
        while not self.ends:
            for it in self.nodes.values():
                it.feed(time.monotonic())
            time.sleep(0.003)

    def close(self):
        self.ends = True
        for it in self.nodes.values():
            it.kill()
        if self.network:
            self.network.close()
        if self.temporary:
            shutil.rmtree(self.temporary, ignore_errors=True)

    # -- the words

    def submit(self, p, *text):
        text = " ".join(text).encode()
        node = self.nodes[int(p)]
        if not node.runs:
            raise ValueError(f"{p} does not run")
        node.texts[node.view, node.submitted] = text
        node.submitted += 1
        node.line(f"submit {text.hex() or '-'}")

    def join(self, p, q):
        self.nodes[int(p)].line(f"join {int(q)}")

    def suspect(self, p, q):
        self.nodes[int(p)].line(f"suspect {int(q)}")

    def kill(self, p):
        self.nodes[int(p)].kill()

    def start(self, p):
        if self.nodes[int(p)].runs:
            raise ValueError(f"{p} runs")
        self.nodes[int(p)].start()

    def snap(self, p):
        write_to(self.nodes[int(p)].child, "snap\n")

    def resume(self, p):
        node = self.nodes[int(p)]
        if node.runs:
            raise ValueError(f"{p} runs")
        if not node.snapshot:
            raise ValueError(f"{p} has written no snapshot")
        node.start(node.snapshot)

    def cut(self, p, q):
        self.needs_network().cuts.add((min(int(p), int(q)), max(int(p), int(q))))

    def heal(self):
        self.needs_network().cuts.clear()

    def lie(self, p, q, *text):
        p, q, node = int(p), int(q), self.nodes[int(p)]
        if not self.kit.is_plain:
            raise ValueError("only plain keys sign for this program: --keys plain:10000")
        if not node.submitted:
            raise ValueError(f"{p} has sent nothing in view {node.view}")
        statement = schedules.init(node.submitted - 1, " ".join(text).encode(), node.view)
        claim = (p, statement, schedules.signature(self.kit.keys[p], self.kit.group, p, statement))
        self.needs_network().hand_in(q, self.kit.datagram(p, q, schedules.bundle([claim])))

    def needs_network(self):
        if not self.network:
            raise ValueError("with --direct the network is the machine's own")
        return self.network

    def show(self):
        for p, it in self.nodes.items():
            members = f" : {it.members}" if it.members else ""
            self.say(p, f"{'runs' if it.runs else 'down'}, view {it.view}{members}, {it.delivered} delivered")
        if self.network:
            counts = self.network.counts
            self.say("-", ", ".join(f"{counts[it]} {it}" for it in ("sent", "lost", "twice", "late", "cut")))

    def audit(self, *correct):
        data, there = self.kit.without_secrets().encode(), []
        for p in self.nodes:
            try:
                journal = (self.folder / f"{p}.journal").read_bytes()
            except FileNotFoundError:
                # it has not run yet
                continue
            there.append(p)
            data += f"journal {len(journal)}\n".encode() + journal
        words = [self.program, "audit", *map(str, sorted(map(int, correct)) or there)]
        done = subprocess.run(words, input=data, capture_output=True, check=False)
        self.say("-", (done.stdout + done.stderr).decode().rstrip("\n"))

    def until(self, p, *line):
        until = time.monotonic() + MOST_SECONDS
        waits = [it for it in self.nodes.values() if it.runs] if p == "all" else [self.nodes[int(p)]]
        while not all(it.has_written(list(line)) for it in waits):
            if time.monotonic() > until:
                raise ValueError(f"not written in {MOST_SECONDS} seconds")
            time.sleep(0.01)

    def wait(self, seconds):
        time.sleep(float(seconds))

    WORDS = {"submit", "join", "suspect", "kill", "start", "snap", "resume", "cut", "heal", "lie", "show", "audit", "until", "wait"}

    def do(self, line):
        """Carries out a line; false at the end."""
        words = line.split()
        if not words:
            return True
        if words[0] == "quit":
            return False
        if words[0] not in self.WORDS:
            self.say("-", f"no word of this program: {words[0]}")
            return True
        try:
            getattr(self, words[0])(*words[1:])
        except (TypeError, ValueError, KeyError, OSError) as fault:
            self.say("-", f"{line.strip()}: {fault}")
        return True


def read_words():
    words = argparse.ArgumentParser(description=__doc__.partition("\n")[0])
    words.add_argument("n", type=int)
    words.add_argument("--keys", default="plain:10000")
    for part in ("loss", "twice", "late"):
        words.add_argument(f"--{part}", type=float, default=0.0)
    words.add_argument("--seed", type=int, default=0)
    words.add_argument("--tick", type=float, default=0.5)
    words.add_argument("--folder")
    words.add_argument("--program", default=str(TOP / "rampart"))
    for flag in ("guards", "direct"):
        words.add_argument(f"--{flag}", action="store_true")
    return words.parse_args()


def main():
    signal.signal(signal.SIGTERM, lambda *_: sys.exit(143))
    group = Group(read_words())
    try:
        group.open()
        for line in sys.stdin:
            if not group.do(line):
                break
    except KeyboardInterrupt:
        pass
    finally:
        group.close()


if __name__ == "__main__":
    if sys.argv[1:2] == ["--inside"]:
        signal.signal(signal.SIGINT, signal.SIG_IGN)
        inside(int(sys.argv[2]), int(sys.argv[3]), [int(it) for it in sys.argv[4:]])
    else:
        main()
