#!/usr/bin/env bash
# The sizes of the page and of its module, and for each example the milliseconds of a replay in node beside those of the program, started
# for it, and of the other commands in node. Each time is the least of several turns. Run it from any folder, with `rt` and `node` in the
# path; it builds the page and the program where they are not. With the word page64.wasm it measures the module before its addresses are
# lowered. Goals: a module of at most 600 kB, 200 kB packed; a page of at most 350 kB; a replay of an example with trees at most six times
# the program's.
set -eu
top=$(cd "$(dirname "$0")/.." && pwd)
[ -e "$top/web/out/rampart.html" ] || "$top/web/build"
"$top/rampart" --prove
python3 - "$top" "${1:-page.wasm}" <<'PY'
import base64
import gzip
import pathlib
import re
import subprocess
import sys
import time

top, name = pathlib.Path(sys.argv[1]), sys.argv[2]
module, page = top / "web/out" / name, top / "web/out/rampart.html"
program = top / "crates/rampart/out/rampart"
packed = len(gzip.compress(module.read_bytes(), 9))
print(f"{name}: {module.stat().st_size:,} bytes, {packed:,} packed; the page: {page.stat().st_size:,} bytes")

TURNS = 7
COMMANDS = ("assemble", "run", "draw", "replay")


def native(schedule):
    """The milliseconds of a replay by the program, and its report."""
    with open(schedule, "rb") as given:
        begun = time.monotonic()
        done = subprocess.run([program, "replay"], stdin=given, stdout=subprocess.PIPE)
    return 1000 * (time.monotonic() - begun), done.stdout


def in_node(story):
    """The milliseconds of each command, the least of its turns, and the report."""
    asked = [(command, story if command == "assemble" else story.with_suffix(".rps")) for command in COMMANDS]
    lines = "".join(f"{command}\t{file}\n" for command, file in asked) * TURNS
    words = ["node", *(["--experimental-wasm-memory64"] if "64" in name else []), top / "web/calls.js", module]
    answers = [it.split(" ") for it in subprocess.run(words, input=lines, capture_output=True, text=True, check=True).stdout.splitlines()]
    least = [min(float(took) for _, took, _ in answers[i::len(COMMANDS)]) for i in range(len(COMMANDS))]
    return least, base64.b64decode(answers[len(COMMANDS) - 1][2])


print(f"{'ms':26}{'program':>9}{'replay':>9}{'times':>7}{'assemble':>10}{'run':>8}{'draw':>8}")
for story in sorted((top / "examples").glob("*.story")):
    turns = [native(story.with_suffix(".rps")) for _ in range(TURNS)]
    spent, report = min(turns)
    (assembled, ran, drawn, replayed), told = in_node(story)
    if told != report:
        sys.exit(f"{story.stem}: the reports differ")
    trees = " with trees" if re.search(r"^group \S+ (lms|hss)", story.read_text(), re.M) else ""
    print(f"{story.stem:26}{spent:9.1f}{replayed:9.1f}{replayed / spent:7.1f}{assembled:10.1f}{ran:8.1f}{drawn:8.1f}{trees}")
PY
