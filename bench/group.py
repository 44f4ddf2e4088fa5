"""From a submit to its delivery by all four nodes of a group: one message at a time, and sixteen at once.

Each node is a process of its own, with a journal in a file of its own; datagrams pass over the machine's loopback. Beside each time is the
limit: the turns that the busiest node takes in for a message, each with two writes and two syncs to the same disk, timed alone in the same
run. Where `etcd` is installed, a cluster of three members on the same disk takes the same payloads by its own way of asking, HTTP with
JSON. bench/group.sh runs it: [--program PROGRAM] [--folder FOLDER] [--messages NUMBER].
"""
import argparse
import base64
import http.client
import json
import os
import pathlib
import queue
import shutil
import signal
import socket
import statistics
import subprocess
import sys
import tempfile
import threading
import time

TOP = pathlib.Path(__file__).resolve().parent.parent
sys.path.insert(0, str(TOP / "tools"))
import group

PAYLOAD, BATCH = 64, 16
# what a node is asked again after, where nothing had come
PAUSE = 0.0002


class Node(group.Node):
    """A node that is asked for what has come all the time."""

    def start(self):
        super().start()
        self.asks = queue.SimpleQueue()
        threading.Thread(target=self.ask, daemon=True).start()
        self.asks.put(0)

    def ask(self):
        while True:
            time.sleep(self.asks.get())
            self.line("recv 64")

    def hear(self, line):
        words = line.split()
        if words[0] == "recv":
            self.asks.put(PAUSE if words[2] == "0" else 0)
        elif words[0] == "deliver":
            self.group.delivered.put(self.p)


class Group(group.Group):
    """A group whose deliveries are counted."""

    def __init__(self, words):
        super().__init__(words)
        self.nodes = {p: Node(self, p) for p in self.nodes}
        self.delivered = queue.SimpleQueue()

    def feed(self):
        """Each node asks by itself."""

    def say(self, p, line):
        if line.startswith(("killed", "ended")):
            print(f"{p}| {line}", file=sys.stderr)

    def send(self, p, count):
        """Has p submit so many payloads at once, and returns how many seconds later all nodes have delivered them."""
        begun = time.perf_counter()
        group.write_to(self.nodes[p].child, "".join(f"{p} submit {os.urandom(PAYLOAD).hex()}\n" for _ in range(count)))
        for _ in range(count * len(self.nodes)):
            self.delivered.get(timeout=60)
        return time.perf_counter() - begun

    def turns(self):
        """The most entries that a journal has."""
        return max(entries_of((self.folder / f"{p}.journal").read_bytes()) for p in self.nodes)


def entries_of(journal):
    """After a header of 60 bytes each entry is a gate of 1, open, a length in four bytes, and so many bytes."""
    at, count = 60, 0
    while journal[at] == 1:
        at += 5 + int.from_bytes(journal[at + 1 : at + 5], "big")
        count += 1
    return count


def turn_of(folder, size, count=200):
    """The seconds of the two writes of a turn, the entry and then its gate, with a sync each."""
    with tempfile.TemporaryFile(dir=folder) as it:
        at, begun = 60, time.perf_counter()
        for _ in range(count):
            os.pwrite(it.fileno(), bytes(size + 5), at + 1)
            os.fdatasync(it.fileno())
            os.pwrite(it.fileno(), b"\1", at)
            os.fdatasync(it.fileno())
            at += size + 5
        return (time.perf_counter() - begun) / count


def told(name, seconds, count):
    seconds = sorted(seconds)
    ms = [1000 * it for it in (statistics.median(seconds), seconds[min(len(seconds) - 1, len(seconds) * 99 // 100)])]
    return f"{name}: median {ms[0]:.1f} ms, p99 {ms[1]:.1f} ms, {count * len(seconds) / sum(seconds):.0f} messages a second"


def of_rampart(words, folder):
    them = Group(argparse.Namespace(program=words.program, tick=1, folder=folder, seed=1, n=4, keys="plain:100000", guards=False, direct=True, loss=0, twice=0, late=0))
    try:
        them.open()
        them.send(0, 1)
        for name, count, times in (("one at a time", 1, words.messages), (f"{BATCH} at once", BATCH, words.messages // BATCH)):
            before = them.turns()
            seconds = [them.send(at % 4, count) for at in range(times)]
            time.sleep(0.5)
            turns = (them.turns() - before) / times
            limit = turns * turn_of(folder, 400)
            print(f"rampart, {told(name, seconds, count)}; limit {1000 * limit:.1f} ms ({turns:.1f} turns), {statistics.median(seconds) / limit:.2f} times", flush=True)
    finally:
        them.close()


# ---- etcd


def free_ports(count):
    them = [socket.socket() for _ in range(count)]
    for it in them:
        it.bind(("127.0.0.1", 0))
    ports = [it.getsockname()[1] for it in them]
    for it in them:
        it.close()
    return ports


class Etcd:
    """Three members on the loopback, each with its data in a folder of its own."""

    def __init__(self):
        self.clients, self.members = [], []

    def start(self, folder):
        ports = free_ports(6)
        self.clients = ports[:3]
        peers = ",".join(f"m{at}=http://127.0.0.1:{ports[3 + at]}" for at in range(3))
        for at in range(3):
            own, peer = f"http://127.0.0.1:{ports[at]}", f"http://127.0.0.1:{ports[3 + at]}"
            self.members.append(subprocess.Popen(
                ["etcd", "--name", f"m{at}", "--data-dir", f"{folder}/m{at}", "--listen-client-urls", own, "--advertise-client-urls", own,
                 "--listen-peer-urls", peer, "--initial-advertise-peer-urls", peer, "--initial-cluster", peers],
                stdout=subprocess.DEVNULL, stderr=subprocess.DEVNULL, start_new_session=True))

    def put(self, to, number):
        key, value = (base64.b64encode(it).decode() for it in (b"%d" % number, os.urandom(PAYLOAD)))
        to.request("POST", "/v3/kv/put", json.dumps({"key": key, "value": value}))
        answer = to.getresponse()
        answer.read()
        if answer.status != 200:
            raise OSError(f"etcd answers {answer.status}")

    def wait(self):
        for _ in range(200):
            try:
                self.put(self.connection(), 0)
                return
            except (OSError, http.client.HTTPException):
                time.sleep(0.1)
        raise OSError("etcd does not start")

    def connection(self):
        return http.client.HTTPConnection("127.0.0.1", self.clients[0], timeout=10)

    def close(self):
        for it in self.members:
            it.kill()
            it.wait()


def timed(call, *words):
    begun = time.perf_counter()
    call(*words)
    return time.perf_counter() - begun


def of_etcd(words, folder):
    them = Etcd()
    try:
        them.start(folder)
        them.wait()
        to = them.connection()
        print(f"etcd, {told('one at a time', [timed(them.put, to, at) for at in range(words.messages)], 1)}", flush=True)
        clients = [them.connection() for _ in range(BATCH)]

        def each(to):
            for at in range(words.messages // BATCH):
                them.put(to, at)

        begun = time.perf_counter()
        threads = [threading.Thread(target=each, args=(it,)) for it in clients]
        for it in threads:
            it.start()
        for it in threads:
            it.join()
        count = BATCH * (words.messages // BATCH)
        print(f"etcd, {BATCH} clients at once: {count / (time.perf_counter() - begun):.0f} messages a second", flush=True)
    finally:
        them.close()


def within(measure, words):
    """A measure, in a folder of its own that goes at the end."""
    with tempfile.TemporaryDirectory(prefix="bench-group-", dir=words.folder, ignore_cleanup_errors=True) as folder:
        measure(words, folder)


def main():
    words = argparse.ArgumentParser(description=__doc__.partition("\n")[0])
    words.add_argument("--program", default=str(TOP / "rampart"))
    words.add_argument("--folder", help="where journals lie: on the disk that is to be measured")
    words.add_argument("--messages", type=int, default=400)
    words = words.parse_args()
    signal.signal(signal.SIGTERM, lambda *_: sys.exit(143))
    within(of_rampart, words)
    if shutil.which("etcd"):
        within(of_etcd, words)
    else:
        print("etcd is not installed")


if __name__ == "__main__":
    try:
        main()
    except KeyboardInterrupt:
        sys.exit(130)
