#!/usr/bin/env python3
"""Holds crates.txt to the areas of docs/ARCHITECTURE.md, from the bottom up:

    python3 tools/areas.py             what is not so, a line each
    python3 tools/areas.py --sort      puts crates.txt in that order

An area is a heading of that page («###», and «Tests»), with a sentence and a table of its crates. In crates.txt each area has a comment
line with its name and its sentence, and after it its crates, each after those that it uses; so no area uses a later one. What the line
of a crate says stays as it is, so nothing is proved anew. A new crate gets a row in the page and a line anywhere in crates.txt, and
`--sort`.
"""

import pathlib
import re
import sys

TOP = pathlib.Path(__file__).resolve().parent.parent
LIST, PAGE = TOP / "crates.txt", TOP / "docs" / "ARCHITECTURE.md"
CRATE = re.compile(r"(\w+)[^:]*:(.*)")


def read_lines():
    """The lines of crates.txt that name a crate, by crate."""
    found = (CRATE.match(line) for line in LIST.read_text().splitlines())
    return {it[1]: it[0] for it in found if it}


def uses_of(lines):
    """The crates that the line of each crate names; those of the toolchain are left out."""
    return {name: [it for it in CRATE.match(line)[2].split() if it in lines] for name, line in lines.items()}


def read_areas(names):
    """The areas of the page in its order, each with its first sentence and its crates, row by row."""
    areas = {}
    for part in re.split(r"^###? ", PAGE.read_text(), flags=re.M)[1:]:
        heading, _, text = part.partition("\n")
        rows = re.findall(r"^\| (`[^|]*)\|", text, re.M)
        crates = [word for cell in rows for word in re.findall(r"`(\w+)`", cell) if word in names]
        if crates:
            plain = re.sub(r" \(\[.*?\]\(.*?\)\)", "", " ".join(text.split()))
            areas[heading] = re.match(r"(.*?)[.:](\s|$)", plain)[1], crates
    return areas


def in_order(crates, uses):
    """These crates, each after those of them that it uses, and else as they are."""
    left, done = list(crates), []
    while left:
        free = next((it for it in left if not set(uses[it]) & set(left) - {it}), left[0])
        done.append(free)
        left.remove(free)
    return done


def sorted_text(lines, areas):
    """The text of crates.txt in the order of the areas."""
    uses = uses_of(lines)
    rows = []
    for area, (sentence, crates) in areas.items():
        rows += [f"# {area}: {sentence[0].lower() + sentence[1:]}", *(lines[it] for it in in_order(crates, uses))]
    return "\n".join(rows) + "\n"


def faults(lines, areas):
    """What is not so of the areas."""
    of = {crate: area for area, (_, crates) in areas.items() for crate in crates}
    place = {area: i for i, area in enumerate(areas)}
    for crate, used in uses_of(lines).items():
        if crate not in of:
            yield f"docs/ARCHITECTURE.md: {crate} is in no area"
            continue
        for it in used:
            if it in of and place[of[it]] > place[of[crate]]:
                yield f"docs/ARCHITECTURE.md: {crate} of «{of[crate]}» uses {it} of «{of[it]}», which comes later"


def all_faults():
    """What is not so of the areas, and of the order of crates.txt."""
    lines = read_lines()
    areas = read_areas(lines)
    found = list(faults(lines, areas))
    if not found and LIST.read_text() != sorted_text(lines, areas):
        found = ["crates.txt: not in the order of docs/ARCHITECTURE.md: python3 tools/areas.py --sort"]
    return found


def main(words):
    lines = read_lines()
    areas = read_areas(lines)
    if words == ["--sort"] and not list(faults(lines, areas)):
        LIST.write_text(sorted_text(lines, areas))
    found = all_faults()
    print(*found, sep="\n", end="\n" if found else "")
    return 1 if found else 0


if __name__ == "__main__":
    sys.exit(main(sys.argv[1:]))
