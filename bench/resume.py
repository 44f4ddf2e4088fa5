"""What a restart costs: a journal of 100,000 entries opened by `node`, and by `resume` from a snapshot near its end.

Four nodes with plain keys, each a process of its own as those of bench/group.py, deliver one message after another, and after each
thousand they go on to a next view. Once the journal of node 0 has so many entries it writes its snapshot, and a few messages more come.
Then it is opened again and again without a script, on a copy. Beside these times is that of SHA-256 of the file, by the program `bench`.
bench/resume.sh runs it: [--program PROGRAM] [--bench BENCH] [--folder FOLDER] [--entries NUMBER].
"""
import argparse
import importlib.util
import os
import pathlib
import queue
import re
import shutil
import subprocess
import sys
import tempfile
import time

TOP = pathlib.Path(__file__).resolve().parent.parent
HERE = importlib.util.spec_from_file_location("bench_audit", TOP / "bench" / "audit.py")
bench_audit = importlib.util.module_from_spec(HERE)
HERE.loader.exec_module(bench_audit)
entries_of = bench_audit.bench_group.entries_of

# messages between two looks at the journal, messages after the snapshot, and how often each opening is timed
AT_ONCE, AFTER, RUNS = 100, 20, 15


class Node(bench_audit.Node):
    """A node that tells of its snapshots."""

    def hear(self, line):
        if line.startswith("snap "):
            self.group.snapshots.put(line)
        else:
            super().hear(line)


class Group(bench_audit.Group):
    """A group that delivers messages until a journal is long."""

    def __init__(self, words):
        super().__init__(words)
        self.nodes = {p: Node(self, p) for p in self.nodes}
        self.count, self.snapshots = 0, queue.SimpleQueue()

    def deliver(self, p):
        """Has p submit a payload that all deliver. What a datagram that was lost had is sent again as time passes."""
        self.nodes[p].line(f"submit {os.urandom(bench_audit.bench_group.PAYLOAD).hex()}")
        for _ in self.nodes:
            while not self.has_delivered():
                for it in self.nodes.values():
                    it.line("tick")

    def has_delivered(self):
        try:
            return self.delivered.get(timeout=1) is not None
        except queue.Empty:
            return False

    def go_on(self, messages):
        for _ in range(messages):
            self.deliver(self.count % 4)
            self.count += 1
            if self.count % bench_audit.IN_VIEW == 0:
                self.renew()

    def journal(self):
        return self.folder / "0.journal"

    def snapshot(self):
        """The line of node 0, whose journal goes on afterwards."""
        self.snap(0)
        return self.snapshots.get(timeout=60)


def made(words, folder):
    """The kit of node 0, the line of its snapshot, and its journal."""
    them = Group(argparse.Namespace(program=words.program, tick=1, folder=folder, seed=1, n=4, keys="plain:100000000", direct=True, loss=0, twice=0,
                                    late=0, guards=False))
    try:
        them.open()
        while entries_of(them.journal().read_bytes()) < words.entries:
            them.go_on(AT_ONCE)
        line = them.snapshot()
        them.go_on(AFTER)
    finally:
        them.close()
    return them.kit.of(0), line, them.journal().read_bytes()


def opened(words, folder, word, text, journal):
    """The least seconds of an opening, and what the node says."""
    path, seconds = folder / "opened.journal", []
    for _ in range(RUNS):
        path.write_bytes(journal)
        begun = time.perf_counter()
        done = subprocess.run([words.program, word, path], input=text.encode(), stdout=subprocess.PIPE, check=True)
        seconds.append(time.perf_counter() - begun)
    return min(seconds), done.stdout


def hashed(words, folder, journal):
    """The least seconds of SHA-256 of a journal."""
    path = folder / "hashed"
    path.write_bytes(journal)
    said = [subprocess.run([words.bench, "hash", path], stdout=subprocess.PIPE, check=True, text=True).stdout for _ in range(RUNS)]
    return min(int(re.search(r": (\d+) us", it)[1]) / 1e6 for it in said)


def report(words, folder):
    kit, line, journal = made(words, folder)
    place = int.from_bytes(bytes.fromhex(line[5 + 2 * 60 : 5 + 2 * 68]), "big")
    by_node, said = opened(words, folder, "node", kit, journal)
    by_snapshot, said_so = opened(words, folder, "resume", f"{kit}{line}\n", journal)
    if said != said_so:
        raise SystemExit(f"node says {said}, and resume {said_so}")
    nothing, _ = opened(words, folder, "node", kit, journal[:60] + b"\0")
    whole, alone = hashed(words, folder, journal), by_snapshot - nothing
    after = entries_of(journal) - entries_of(journal[:place] + b"\0")
    print(f"{entries_of(journal):,} entries, {len(journal):,} bytes; a snapshot of {len(line) // 2:,} bytes, {after} entries before the end")
    print(f"node {1000 * by_node:.0f} ms, resume {1000 * by_snapshot:.0f} ms, an opening without an entry {1000 * nothing:.0f} ms")
    print(f"SHA-256 of the file {1000 * whole:.0f} ms: resume takes {alone / whole:.2f} times as long (goal: 1.5 and the signatures after the place)")


def main():
    words = argparse.ArgumentParser()
    words.add_argument("--program", default=str(TOP / "crates/rampart/out/rampart"))
    words.add_argument("--bench", default=str(TOP / "crates/bench/out/bench"))
    words.add_argument("--folder", default="/dev/shm" if pathlib.Path("/dev/shm").is_dir() else None)
    words.add_argument("--entries", type=int, default=100_000)
    words = words.parse_args()
    folder = pathlib.Path(tempfile.mkdtemp(prefix="bench-resume-", dir=words.folder))
    try:
        report(words, folder)
    finally:
        shutil.rmtree(folder, ignore_errors=True)


if __name__ == "__main__":
    sys.exit(main())
