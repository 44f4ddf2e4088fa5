#!/usr/bin/env python3
"""Compares schedules with what comes back of their stories, and asks for the faults of texts that are none.

    python3 tools/compare_stories.py NUMBER COUNT FOLDER [TRY]

FOLDER has the other implementation, as `compare_schedules.py` has it. COUNT schedules of all schemes and versions are drawn from NUMBER.
Each is made a story by `story text`, and its bytes again by `story assemble`. And 300 texts with one fault each are assembled: a word
dropped or put in, a number too large, an unknown word, a text that does not end, a line too many or too few; the line must be the one
that was changed, and the message must begin with what was expected there. Each difference is printed, and at the end how often each
message came. With the word TRY the program is run unproved, by `rt try`. The status is 1 where anything differs.
"""

import collections
import pathlib
import random
import re
import subprocess
import sys
import tempfile

from compare_schedules import Drawing, fixed, their_modules

CRATE = pathlib.Path(__file__).resolve().parent.parent / "crates" / "story"
FAULTY = 300

# what is told of a line by its first word
USAGE = {
    "group": "group NAME SCHEME", "process": "process P ROLE KEY", "genesis": "process P ROLE KEY", "submit": "submit P PAYLOAD",
    "raw": "raw P from Q BYTES", "pass": "pass FRAME to P", "drain": "drain COUNT to MASK", "lie": "lie P to MASK: STATEMENT",
    "suspect": "suspect P of Q", "join": "join P of Q", "renew": "renew P", "tick": "tick P"}
EVENT = "an event: submit"
QUOTE = "a quote that ends"
ESCAPE = "a quote or a backslash"
STEPS = "at most 1000000 steps"


# ---- the program


def build():
    subprocess.run(["rt", "run", "--", "text"], cwd=CRATE, stdin=subprocess.DEVNULL, stdout=subprocess.DEVNULL, stderr=subprocess.DEVNULL,
                   check=False)


def run_built(word, inputs):
    for data in inputs:
        done = subprocess.run([str(CRATE / "out" / "story"), word], input=data, capture_output=True, check=False)
        yield done.returncode, done.stdout, done.stderr


def run_tried(word, inputs):
    for data in inputs:
        with tempfile.NamedTemporaryFile() as file:
            file.write(data)
            file.flush()
            with open(file.name, "rb") as given:
                done = subprocess.run(["rt", "try", "--", word], cwd=CRATE, stdin=given, capture_output=True, check=False)
        yield done.returncode, done.stdout, done.stderr


# ---- there and back


def schedules(number, count, theirs):
    """Drawn bytes that are schedules, some of each scheme and version."""
    drawing = Drawing(number)
    for data in fixed():
        if count and theirs.answer(data).startswith("schedule "):
            count -= 1
            yield data
    while count:
        data = drawing.schedule()
        if theirs.answer(data).startswith("schedule "):
            count -= 1
            yield data


def compare_back(run, drawn):
    different = 0
    texts = list(run("text", drawn))
    back = run("assemble", [text for _, text, _ in texts])
    for data, (status, text, _), (again, made, told) in zip(drawn, texts, back):
        if status or again or made != data:
            different += 1
            print("%s\n  status %d, then %d: %.200r" % (data.hex()[:2000], status, again, told))
    print("%d schedules, %d different" % (len(drawn), different))
    return different, [text.decode("latin-1") for status, text, _ in texts if not status]


# ---- texts with a fault


class Faults:
    """One fault put into a text: the text, the number of the line that has it, and how what was expected there begins."""

    def __init__(self, number):
        self.draw = random.Random(number)

    def word_dropped(self, lines, at):
        words = lines[at].split(" ")
        # the last word of a genesis, of a mask or of a batch may be left out, and so may the form of a key
        if words[0] in ("genesis", "drain", "lie", "group", "process") or '"' in lines[at]:
            words = words[:1]
        else:
            del words[self.draw.randrange(1, len(words))]
        return " ".join(words), USAGE[words[0]]

    def word_put_in(self, lines, at):
        first = lines[at].split(" ")[0]
        return lines[at] + " extra", USAGE[first]

    def number_too_large(self, lines, at):
        words = lines[at].split(" ")
        places = [i for i, word in enumerate(words[:2]) if i and re.fullmatch("[0-9]+", word)]
        if not places:
            return None
        words[places[0]] = "4294967296"
        return " ".join(words), USAGE[words[0]]

    def unknown_word(self, lines, at):
        words = lines[at].split(" ")
        expected = {"group": USAGE["group"], "process": USAGE["process"], "genesis": USAGE["process"]}.get(words[0], EVENT)
        return " ".join([words[0] + "s"] + words[1:]), expected

    def open_text(self, lines, at):
        return lines[at] + ' "never ended', QUOTE

    def wrong_escape(self, lines, at):
        return lines[at] + ' "\\n"', ESCAPE

    def wrong_place(self, lines, at):
        if lines[at].split(" ")[0] in ("group", "process", "genesis"):
            return "tick 0", USAGE["group" if at == 0 else "process"]
        return "genesis 0", EVENT

    def unlisted(self, lines, at):
        """A process that takes no part, or one of the other role."""
        words = lines[at].split(" ")
        roles = {words[1]: words[2] for words in (line.split(" ") for line in lines) if words[0] == "process"}
        free = [str(p) for p in range(64) if str(p) not in roles]
        if words[0] == "lie":
            others = free + [p for p, role in roles.items() if role == "correct"]
        elif words[0] in ("submit", "raw", "suspect", "join", "renew", "tick"):
            others = free + [p for p, role in roles.items() if role == "corrupt"]
        else:
            return None
        if not others:
            return None
        words[1] = self.draw.choice(others)
        return " ".join(words), USAGE[words[0]]

    def too_many_steps(self, lines, at):
        if lines[at].split(" ")[0] in ("group", "process", "genesis"):
            return None
        return "drain 1000001 to all", STEPS

    KINDS = [word_dropped, word_put_in, number_too_large, unknown_word, open_text, wrong_escape, wrong_place, unlisted, too_many_steps]

    def one(self, text):
        lines = text.split("\n")[:-1]
        kind = self.draw.choice(self.KINDS)
        # a later line more often than one of the first
        at = max(self.draw.randrange(len(lines)), self.draw.randrange(len(lines)))
        made = kind(self, lines, at)
        if not made:
            return None
        line, expected = made
        comment = self.draw.choice(["", " # a comment", "\t"]) if kind not in (Faults.open_text,) else ""
        blank = self.draw.choice([[], [""], ["# nothing", "  "]])
        whole = lines[:at] + blank + [line + comment] + lines[at + 1:]
        return "\n".join(whole) + self.draw.choice(["", "\n"]), at + len(blank) + 1, expected

    def cut_short(self, text):
        lines = text.split("\n")[:-1]
        before = [i for i, line in enumerate(lines) if line.split(" ")[0] in ("group", "process", "genesis")]
        keep = self.draw.choice(before)
        return "".join(line + "\n" for line in lines[:keep]), keep + 1, USAGE["group" if keep == 0 else "process"]


def compare_faults(run, number, texts):
    faults = Faults(number)
    asked = [faults.cut_short(faults.draw.choice(texts)) for _ in range(FAULTY // 10)]
    while len(asked) < FAULTY:
        made = faults.one(faults.draw.choice(texts))
        if made:
            asked.append(made)
    different = 0
    seen = collections.Counter()
    for (text, line, expected), (status, out, told) in zip(asked, run("assemble", [text.encode("latin-1") for text, _, _ in asked])):
        message = told.decode("latin-1").split("\n")[0]
        seen[expected] += 1
        if status != 5 or out or not message.startswith("line %d: expected %s" % (line, expected)):
            different += 1
            print("%.2000s\n  status %d: %s\n  not line %d: expected %s" % (text, status, message, line, expected))
    print("%d texts with a fault, %d different" % (len(asked), different))
    print(", ".join("%s: %d" % item for item in sorted(seen.items())))
    return different


def main(number, count, folder, tried):
    run = run_tried if tried else run_built
    theirs = their_modules(folder)
    if not tried:
        build()
    different, texts = compare_back(run, list(schedules(number, count, theirs)))
    short = [text for text in texts if len(text) < 4000 and text.count("\n") > 3]
    return 1 if compare_faults(run, number, short) + different else 0


if __name__ == "__main__":
    if len(sys.argv) not in (4, 5):
        sys.exit(__doc__)
    sys.exit(main(int(sys.argv[1]), int(sys.argv[2]), sys.argv[3], len(sys.argv) == 5))
