"""The program `interop`: built, asked lines (docs/FORMATS.md, «Questions of one line»), and compared."""

import collections
import pathlib
import subprocess

CRATE = pathlib.Path(__file__).resolve().parent.parent / "crates" / "interop"


def build():
    subprocess.run(["rt", "run"], cwd=CRATE, stdin=subprocess.DEVNULL, stdout=subprocess.DEVNULL, check=True)


def run(text):
    """The status, and what is written."""
    done = subprocess.run([str(CRATE / "out" / "interop")], input=text.encode(), stdout=subprocess.PIPE, check=False)
    return done.returncode, done.stdout.decode()


def word(data):
    """Bytes as a word of a line."""
    return data.hex() or "-"


def compare(asked, kind=None):
    """Asks lines, beside each of which stands the answer of another implementation. Prints each difference and, where answers
    have a kind, how often each came. How many differ."""
    status, told = run("".join(line + "\n" for line, _ in asked))
    ours = told.split("\n")[:-1]
    different = 0 if status == 0 and len(ours) == len(asked) else 1
    if different:
        print("status %d, %d answers to %d lines" % (status, len(ours), len(asked)))
    for (line, theirs), mine in zip(asked, ours):
        if mine != theirs:
            different += 1
            print("%.2000s\n  %.200s, not %.200s" % (line, mine, theirs))
    print("%d lines, %d different" % (len(asked), different))
    if kind:
        seen = collections.Counter(kind(line, theirs) for line, theirs in asked)
        print(", ".join("%s %d" % item for item in sorted(seen.items())))
    return different


def compare_stops(first, texts):
    """Asks each text behind a first line whose answer is `false`, and which is no question: the program stops at line 2. Prints each
    other answer. How many there are."""
    different = 0
    for text in texts:
        answer = run(first + text)
        if answer != (7, "false\nstop 7 line 2\n"):
            different += 1
            print("%.120r: %r" % (first + text, answer))
    print("%d lines that are no question, %d different" % (len(texts), different))
    return different
