#!/usr/bin/env python3
"""Counts the ways down through crates.txt, each of which `rt` walks: python3 tools/paths.py [crates.txt] [--most N] [--cut N]

`rt` asks each crate for those below it and keeps no answer, so a crate costs a step for each way down from it; all crates together are
walked some twenty times in a run of the gate, and once more for each check. It prints the number of crates, names and ways, and the
twelve crates with the most ways. With --most N the status is 1 where there are more than N ways. With --cut N it prints the N lines
that can best lose a name: the lower crate is reached another way too, and is named in four places of the upper one at most."""
import os
import re
import sys


def read(file):
    """The crates that each crate names, by name; those of the toolchain are left out."""
    with open(file, encoding="utf-8") as lines:
        rows = [line.partition("#")[0].partition(":") for line in lines]
    rows = {name.split()[0]: uses.split() for name, _, uses in rows if name.strip()}
    return {name: [it for it in uses if it in rows] for name, uses in rows.items()}


def for_each(below, combine):
    """Of each crate what `combine` makes of those that it names, and of what came of them."""
    found = {}

    def of(name):
        if name not in found:
            found[name] = combine(below[name], [of(it) for it in below[name]])
        return found[name]

    for name in below:
        of(name)
    return found


def ways(below):
    """How many ways lead down from each crate, itself among them."""
    return for_each(below, lambda _, counts: 1 + sum(counts))


def reached(below):
    """All crates below each."""
    return for_each(below, lambda uses, sets: set(uses).union(*sets))


def text_of(folder):
    """The sources, definitions and proofs in a folder, one behind the other."""
    text = ""
    for at, folders, files in os.walk(folder):
        folders[:] = [it for it in folders if it not in ("out", "must-fail")]
        for name in files:
            if name.endswith((".rt", ".antt")):
                with open(f"{at}/{name}", encoding="utf-8") as source:
                    text += source.read()
    return text


def places_in(top, below):
    """In how many places each crate names each that its line names."""
    texts = {it: text_of(f"{top}/crates/{it}") for it in below}
    return {(crate, it): len(re.findall(rf"\bRattle\.{it}\.|(?<![\w.]){it}::", texts[crate])) for crate, uses in below.items() for it in uses}


def best_cut(below, places):
    """The name that is the easiest to do without for what it saves, with the ways that it saves; None where there is none."""
    down, up = ways(below), ways({it: [above for above in below if it in below[above]] for it in below})
    under, best = reached(below), None
    for crate, uses in below.items():
        for it in uses:
            if places[crate, it] <= 4 and any(it in under[other] for other in uses):
                saved = up[crate] * down[it]
                best = max(best or (0,), (saved / (1 + places[crate, it]) ** 0.7, saved, crate, it))
    return best and best[1:]


def print_cuts(file, below, number):
    """Cuts that many names, each the best that is left."""
    places = places_in(os.path.dirname(os.path.abspath(file)), below)
    for _ in range(number):
        cut = best_cut(below, places)
        if not cut:
            return
        saved, crate, it = cut
        total = sum(ways(below).values())
        print(f"{crate} without {it} (named in {places[crate, it]} places): {total:,} to {total - saved:,}")
        below[crate].remove(it)


def main(words):
    option = lambda name: int(words[words.index(name) + 1]) if name in words else 0
    file = next((it for it in words if it.endswith(".txt")), "crates.txt")
    most, number = option("--most"), option("--cut")
    below = read(file)
    found = ways(below)
    total = sum(found.values())
    print(f"{len(below)} crates, {sum(map(len, below.values())):,} names, {total:,} ways")
    for name in sorted(found, key=lambda it: -found[it])[:12]:
        print(f"{found[name]:>12,} {name} ({len(below[name])} names)")
    print_cuts(file, below, number)
    if most and total > most:
        sys.exit(f"crates.txt: {total:,} ways, and {most:,} is the most; `python3 tools/paths.py --cut 12` says which names to do without")


if __name__ == "__main__":
    main(sys.argv[1:])
