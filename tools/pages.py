"""Holds the pages against the code: what they name is there, each crate has its row, and rows are short.

    python3 tools/pages.py

Looked at are README.md, docs/ARCHITECTURE.md, docs/PROVED.md, docs/TESTED.md and docs/CONTRIBUTING.md:

- a name of the last column of docs/PROVED.md is a function, a clause or a type of the crates in its row's first column;
- each crate has one row in docs/ARCHITECTURE.md, tests aside, and comes after those of its table that it uses; no area uses a later one,
  and crates.txt is in the order of the areas (tools/areas.py);
- a test that docs/TESTED.md names is a test;
- a link leads to a file, and so does a path that begins with tools/, bench/, docs/, examples/ or crates/;
- README.md has at most 120 lines, a line at most 140 characters and a row at most 300.

Each fault is printed. The status is 1 where there is one.
"""

import pathlib
import re
import sys

import areas

TOP = pathlib.Path(__file__).resolve().parent.parent
PAGES = ["README.md"] + [f"docs/{name}.md" for name in "ARCHITECTURE PROVED TESTED CONTRIBUTING COMPARING".split()]
ROW, LINE, FIRST_PAGE = 300, 140, 120
PATH = re.compile(r"`((?:tools|bench|crates|docs|examples)/[\w./-]+)`")


def read_crates():
    """The crates, each with those that its line of crates.txt names."""
    lines = (re.match(r"(\w+)[^:]*:(.*)", line) for line in (TOP / "crates.txt").read_text().splitlines() if line[:1].isalpha())
    return {found[1]: found[2].split() for found in lines}


def names_of(crate):
    """The words of the crate's code and definitions that a page may name, and those of its functions that are tests."""
    names, tests = {crate}, set()
    for path in (TOP / "crates" / crate).rglob("*"):
        if path.suffix not in (".rt", ".antt") or "out" in path.parts:
            continue
        text = path.read_text()
        names.add(path.stem)
        names.update(re.findall(r"\b(?:fn|struct|enum|trait|type|const|mod|ensures|requires|ghost)(?: fn)? (\w+)", text))
        names.update(re.findall(r"\b(?:abbrev|unfoldable|record|data)(?: pub)?(?: record| data)? (\w+)", text))
        names.update(re.findall(r"^pub (?:record |data )?(\w+)", text, re.M))
        names.update(found for pair in re.findall(r"\bimpl\b[^{]*?\b(\w+)(?:<[^{]*?>)? for (\w+)", text) for found in pair)
        names.update(word for used in re.findall(r"pub use [^;\n]*", text) for word in re.findall(r"\w+", used))
        tests.update(re.findall(r"#\[test\]\s+fn (\w+)", text))
    return names | tests, tests


def rows(page):
    """The rows of the page's tables: line number, heading above, and cells."""
    heading = ""
    for number, line in enumerate((TOP / page).read_text().splitlines(), 1):
        if line.startswith("#"):
            heading = line.lstrip("# ")
        elif line.startswith("| ") and not line.startswith("|---"):
            yield number, heading, [cell.strip() for cell in line.strip("|").split("|")]


def in_code(cell):
    """The words of what stands between back ticks."""
    return [word for quoted in re.findall(r"`([^`]+)`", cell) for word in re.findall(r"\w+", quoted) if word not in ("for", "proofs")]


def faults_of_lines(page):
    lines = (TOP / page).read_text().splitlines()
    if page == "README.md" and len(lines) > FIRST_PAGE:
        yield f"{page}: {len(lines)} lines"
    for number, line in enumerate(lines, 1):
        if len(line) > (ROW if line.startswith("|") else LINE) and not line.startswith("!["):
            yield f"{page}:{number}: {len(line)} characters"
        there = [(TOP / page).parent / link for link in re.findall(r"\]\(([^)#:]+)\)", line)] + [TOP / path for path in PATH.findall(line)]
        for path in there:
            if not path.exists() and "NAME" not in str(path):
                yield f"{page}:{number}: there is no {path.relative_to(TOP)}"


def faults_of_proved(names):
    crates = []
    for number, _, cells in rows("docs/PROVED.md"):
        own = [word for word in in_code(cells[0]) if word in names]
        crates = own or (crates if not cells[0] else ["rampart_cli"])
        for word in in_code(cells[-1]) if len(cells) == 3 else []:
            if not any(word in names[crate][0] for crate in crates):
                yield f"docs/PROVED.md:{number}: no {word} in {' '.join(crates)}"


def faults_of_map(crates):
    tables = {}
    for _, heading, cells in rows("docs/ARCHITECTURE.md"):
        tables.setdefault(heading, []).extend(word for word in in_code(cells[0]) if word in crates)
    listed = [crate for heading, table in tables.items() if heading != "Tests" for crate in table]
    for crate in crates:
        if not crate.endswith("_tests") and listed.count(crate) != 1:
            yield f"docs/ARCHITECTURE.md: {crate} has {listed.count(crate)} rows"
    for heading, table in tables.items():
        for i, crate in enumerate(table):
            for below in set(crates[crate]).intersection(table[i + 1 :]):
                yield f"docs/ARCHITECTURE.md: «{heading}» has {crate} before {below}, which it uses"
    yield from areas.all_faults()


def faults_of_tested(names):
    every = set().union(*(names[crate][0] for crate in names))
    for number, heading, cells in rows("docs/TESTED.md"):
        for word in in_code(cells[-1]) if heading.startswith(("That memory", "What else")) else []:
            if "_" in word and word not in every:
                yield f"docs/TESTED.md:{number}: there is no {word}"


def main():
    crates = read_crates()
    names = {crate: names_of(crate) for crate in crates}
    faults = [fault for page in PAGES for fault in faults_of_lines(page)]
    faults += [*faults_of_proved(names), *faults_of_map(crates), *faults_of_tested(names)]
    print(*faults, sep="\n", end="\n" if faults else "")
    return 1 if faults else 0


if __name__ == "__main__":
    sys.exit(main())
