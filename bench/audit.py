"""What an audit of four nodes with plain keys costs.

Each node is a process of its own, as those of bench/group.py; one message after another is delivered by all of them, and after each thousand
they go on to a next view. Their journals are audited by the program `bench`, which tells of its times beside those of taking the same
entries alone and of the signatures' hashes, and by the program `rampart`, which tells of the memory. bench/audit.sh runs it:
[--program PROGRAM] [--bench BENCH] [--folder FOLDER] [--messages NUMBER] [--keep FILE], where FILE gets the input of the audit.
"""
import argparse
import importlib.util
import pathlib
import queue
import re
import shutil
import subprocess
import sys
import tempfile

from memory import most_memory

TOP = pathlib.Path(__file__).resolve().parent.parent
HERE = importlib.util.spec_from_file_location("bench_group", TOP / "bench" / "group.py")
bench_group = importlib.util.module_from_spec(HERE)
HERE.loader.exec_module(bench_group)

IN_VIEW, RUNS = 1000, 3


class Node(bench_group.Node):
    """A node that tells of the views that it installs."""

    def hear(self, line):
        super().hear(line)
        if line.startswith("view "):
            self.group.installed.put(self.p)


class Group(bench_group.Group):
    """A group that goes on to next views."""

    def __init__(self, words):
        super().__init__(words)
        self.nodes = {p: Node(self, p) for p in self.nodes}
        self.installed = queue.SimpleQueue()

    def renew(self):
        """Two members ask for the next view, and all install it."""
        for p in (0, 1):
            self.nodes[p].line("renew")
        for _ in self.nodes:
            self.installed.get(timeout=60)

    def input(self):
        """The input of an audit of all journals."""
        journals = [(self.folder / f"{p}.journal").read_bytes() for p in sorted(self.nodes)]
        return self.kit.without_secrets().encode() + b"".join(b"journal %d\n" % len(it) + it for it in journals)


def journals_of(words):
    """What an audit reads of a group that delivers so many messages."""
    folder = tempfile.mkdtemp(prefix="bench-audit-", dir=words.folder)
    them = Group(argparse.Namespace(program=words.program, tick=1, folder=folder, seed=1, n=4, keys="plain:100000000", direct=True, loss=0, twice=0,
                                    late=0, guards=False))
    try:
        them.open()
        for n in range(words.messages):
            them.send(n % 4, 1)
            if n % IN_VIEW == IN_VIEW - 1:
                them.renew()
    finally:
        them.close()
    read = them.input()
    shutil.rmtree(folder, ignore_errors=True)
    return read


def told(words, path, *more):
    """What `bench audit` tells of the input."""
    with open(path, "rb") as read:
        return subprocess.run([words.bench, "audit", *more], stdin=read, check=True, capture_output=True, text=True).stdout


def memory(path, *command):
    """The most memory of a program that reads the input, in bytes."""
    with open(path, "rb") as read, subprocess.Popen(command, stdin=read, stdout=subprocess.DEVNULL) as child:
        most = most_memory(child)
    if child.returncode:
        raise SystemExit(f"{command} ended with {child.returncode}")
    return most


def seconds(runs, what):
    """The least time of this name."""
    return min(float(re.search(what + r" ([\d.]+) s", run)[1]) for run in runs)


def report(words, path):
    runs = [told(words, path) for _ in range(RUNS)]
    counts = runs[0].splitlines()[0]
    whole, alone, hashing = (seconds(runs, what) for what in ("audit", "absorb alone", "blocks alone"))
    signed = int(re.search(r"(\d+) signatures", counts)[1])
    size = path.stat().st_size
    print(f"{counts}, {size:,} bytes of input")
    print(f"audit {whole:.2f} s, absorb alone {alone:.2f} s: {whole / alone:.2f} times (goal: at most 1.2)")
    print(f"the blocks of the signatures alone {hashing:.2f} s: the audit takes {whole / hashing:.2f} times as long")
    most = min(memory(path, words.program, "audit", "0", "1", "2", "3") for _ in range(RUNS)) - size
    core = min(memory(path, words.bench, "audit", "alone") for _ in range(RUNS)) - size
    print(f"memory beyond the input {most / 1e6:.0f} MB, of which four cores are {4 * core / 1e6:.0f} MB: "
          f"{(most - 4 * core) / signed:.0f} bytes for each of {signed:,} first claims (goal: at most 96)")


def main():
    words = argparse.ArgumentParser()
    words.add_argument("--program", default=str(TOP / "crates/rampart/out/rampart"))
    words.add_argument("--bench", default=str(TOP / "crates/bench/out/bench"))
    words.add_argument("--folder", default="/dev/shm" if pathlib.Path("/dev/shm").is_dir() else None)
    words.add_argument("--messages", type=int, default=27000)
    words.add_argument("--keep")
    words = words.parse_args()
    with tempfile.TemporaryDirectory(dir=words.folder) as room:
        path = pathlib.Path(words.keep or f"{room}/input")
        path.write_bytes(journals_of(words))
        if not words.keep:
            report(words, path)


if __name__ == "__main__":
    sys.exit(main())
