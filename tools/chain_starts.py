#!/usr/bin/env python3
"""Compares what `witness chain` answers with what another implementation does, from each view of a chain on.

    python3 tools/chain_starts.py NUMBER COUNT FOLDER [PROGRAM]

FOLDER has the other implementation, and inputs are drawn from NUMBER on, one of each number, both as for `compare_chain.py`. COUNT of them
begin with a kit and are taken; each is answered

- as it is: the answer is that of a chain from the kit's first view on;
- cut at each view that it shows: the kit, the view's line as it was written, and the lines after it. What is written is what the other
  implementation wrote of the whole input from this view's line on, with the number of the last line as it is in the cut input;
- from ten lines that are like the line of a view, after the kit and before the proofs: with its members in another order, fewer of them, one
  of them twice, a process without a key, none, 17 of them, numbers beyond the last, with leading zeros and of over 64 bits, further blanks,
  other words and letters. Those that are the line of a view begin a chain there, which the other implementation goes through proof by
  proof; any other one is refused by its number after the kit's first view; and so is the line of a view after one that was taken.

Compared are all bytes and the status. PROGRAM runs in place of ./witness. A difference is printed, and at the end how many answers there
were of what. The status is 1 where anything differs.
"""

import collections
import pathlib
import re
import subprocess
import sys

from compare_chain import Drawing, Theirs

WITNESS = pathlib.Path(__file__).resolve().parent.parent / "witness"
LAST_NUMBER, MOST_MEMBERS = 1023, 16


def ours(program, data):
    done = subprocess.run([program, "chain"], input=data, stdout=subprocess.PIPE, check=False)
    return done.stdout, done.returncode


def read_view(line, kit, make_view):
    """The view that a line says, or None: by the words of docs/FORMATS.md alone."""
    words = line.split(" ")
    numbers = [int(word) if re.fullmatch("0|[1-9][0-9]*", word) else None for word in words[1:2] + words[3:]]
    if words[0] != "view" or words[2:3] != [":"] or len(words) < 4 or None in numbers:
        return None
    number, members = numbers[0], numbers[1:]
    fits = number <= LAST_NUMBER and len(members) <= MOST_MEMBERS and len(set(members)) == len(members)
    return make_view(number, members) if fits and all(p in kit.roster for p in members) else None


class Cutting:
    """The answers to an input from each of its views on."""

    def __init__(self, number, theirs):
        self.drawing = Drawing(number, theirs)
        self.draw, self.theirs = self.drawing.draw, theirs
        self.data = self.drawing.input()
        self.written, self.status = theirs.answer(self.data)
        self.kit = self.drawing.kit
        self.scheme = theirs.signatures.Scheme(self.kit.scheme)
        self.views = [line for line in self.written.decode().splitlines() if line.startswith("view ")]
        # up to the line `go` and its line feed
        self.front = self.data[:self.data.find(b"\ngo\n") + 4] if self.views else b""
        self.lines = self.data[len(self.front):].split(b"\n")

    def stop(self, taken):
        """The last line of the whole answer, where there is one, with its number as it is after one line in place of so many."""
        last = self.written.decode().splitlines()[-1]
        if not last.startswith("stop"):
            return ""
        words = last.split()
        place = 2 if words[2].isdigit() else 3
        words[place] = str(int(words[place]) - taken + 1)
        return " ".join(words) + "\n"

    def cuts(self):
        """From each view that is shown."""
        for taken, view in enumerate(self.views):
            cut = self.front + view.encode() + b"\n" + b"\n".join(self.lines[taken:])
            yield "views", cut, ("".join(line + "\n" for line in self.views[taken:]) + self.stop(taken)).encode(), self.status

    def like(self, view):
        """A line that is like this view's."""
        members, often = list(view.members), self.draw.choice
        what = self.draw.randrange(14)
        number, blank, word = str(view.number), " ", "view"
        keyless = next(p for p in range(64) if p not in self.kit.roster) if len(self.kit.roster) < 64 else 63
        if what == 0:
            self.draw.shuffle(members)
        elif what == 1:
            members = members[:self.draw.randrange(len(members))]
        elif what == 2:
            members += [often(members)]
        elif what == 3:
            members[self.draw.randrange(len(members))] = keyless
        elif what == 4:
            members = list(range(17))
        elif what == 5:
            number = str(often([LAST_NUMBER, LAST_NUMBER + 1, 2 ** 16, 2 ** 16 + view.number, 2 ** 32 + view.number]))
        elif what == 6:
            number = str(often([2 ** 64, 2 ** 64 + view.number, 10 ** 30]))
        elif what == 7:
            number = "0" + number
        elif what == 8:
            blank = often(["  ", "\t"])
        elif what == 9:
            word = often(["View", "views", "", "genesis"])
        elif what == 10:
            members = [64 + members[0]] + members[1:]
        elif what == 11:
            number = often(["+", "-", "x", ""]) + number
        elif what == 12:
            others = [p for p in sorted(self.kit.roster) if p not in members]
            members += others[:1]
        said = [str(p) for p in members]
        if what == 13 and said:
            said[-1] = often(["0" + said[-1], said[-1] + " ", said[-1] + "\r", said[-1].replace("0", "o"), "a"])
        return "%s%s%s : %s" % (word, blank, number, " ".join(said))

    def from_view(self, view, at, lines):
        """The answer from this view on, of which the line has the number before `at`."""
        told = [self.theirs.chain.view_line(view)]
        for place, line in enumerate(lines[:-1]):
            digits = re.fullmatch(b"proof (([0-9a-f]{2})+)", line)
            if not digits or len(line) > self.theirs.chain.PROOF_LINE_LIMIT:
                return told + ["stop 7 line %d" % (at + place)], 7
            frame = bytes.fromhex(digits[1].decode())
            view, fault = self.theirs.chain.advance(view, self.scheme, self.kit.roster, self.kit.group, frame, True)
            if fault is not None:
                return told + ["stop 7 " + " ".join([fault[0], str(at + place)] + [str(word) for word in fault[1:]])], 7
            told.append(self.theirs.chain.view_line(view))
        if lines[-1]:
            return told + ["stop 7 line %d" % (at + len(lines) - 1)], 7
        return told, 0

    def variants(self):
        """From lines that are like a view's."""
        go = self.front.count(b"\n")
        genesis = self.theirs.statements.make_view(0, self.kit.genesis)
        for _ in range(10):
            taken = self.draw.randrange(len(self.views))
            like = self.like(read_view(self.views[taken], self.kit, self.theirs.statements.make_view))
            view, lines = read_view(like, self.kit, self.theirs.statements.make_view), self.lines[taken:]
            told, status = ([self.theirs.chain.view_line(genesis), "stop 7 line %d" % (go + 1)], 7) if view is None else self.from_view(
                view, go + 2, lines)
            cut = self.front + like.encode() + b"\n" + b"\n".join(lines)
            yield "begun" if view else "refused", cut, "".join(line + "\n" for line in told).encode(), status
        again = self.views[-1].encode()
        told = "%s\nstop 7 line %d\n" % (self.views[-1], go + 2)
        yield "second", self.front + again + b"\n" + again + b"\n", told.encode(), 7


def main(first, count, folder, program=WITNESS):
    if program == WITNESS:
        subprocess.run([str(WITNESS), "--prove"], check=True)
    theirs = Theirs(folder)
    different, seen, number = 0, collections.Counter(), int(first)
    while seen["chains"] < int(count):
        cutting = Cutting(number, theirs)
        number += 1
        answers = [("whole", cutting.data, cutting.written, cutting.status)]
        if cutting.views:
            seen["chains"] += 1
            answers += [*cutting.cuts(), *cutting.variants()]
        for what, data, wanted, status in answers:
            seen[what] += 1
            got = ours(program, data)
            if got != (wanted, status):
                different += 1
                print("input %d, %s: %r, not %r" % (number - 1, what, got, (wanted, status)))
    print("%d different; " % different + ", ".join("%d %s" % (many, what) for what, many in sorted(seen.items())))
    return 1 if different else 0


if __name__ == "__main__":
    if len(sys.argv) not in (4, 5):
        raise SystemExit(__doc__)
    sys.exit(main(*sys.argv[1:]))
