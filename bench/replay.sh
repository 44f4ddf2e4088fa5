#!/usr/bin/env bash
# The time of `./rampart gen 1 | ./rampart replay short`, beside that of the SHA-256 blocks which its signatures and their checks
# take where nothing is shared, hashed alone; and of the same schedule with its events ten times over. Each time is the least of several
# turns. Run it from any folder, with `rt` in the path.
set -eu
top=$(cd "$(dirname "$0")/.." && pwd)
cd "$top/crates/bench"
rt run <stdin >/dev/null 2>&1 || { echo 'bench is not built' >&2; exit 1; }
work=$(mktemp -d)
trap 'rm -rf "$work"' EXIT
"$top/rampart" --prove
"$top/rampart" gen 1 >"$work/once"
PYTHONPATH=$top/bench python3 - "$top/crates/rampart/out/rampart" "$work" <<'PY'
import subprocess
import sys
import time

from memory import most_memory

program, work = sys.argv[1:]

# The header of four processes with plain keys, all of them members: the letters and the scheme, the group, the processes, the members.
HEADER = 5 + 16 + 1 + 4 * (1 + 1 + 32 + 4) + 1 + 4


def run(path):
    """The program at work on a schedule."""
    with open(path, "rb") as schedule:
        return subprocess.Popen([program, "replay", "short"], stdin=schedule, stdout=subprocess.PIPE, text=True)


def replay(path):
    """The seconds of a replay, and its short report."""
    begun = time.monotonic()
    child = run(path)
    report, _ = child.communicate()
    if child.returncode:
        raise SystemExit("the replay failed")
    return time.monotonic() - begun, report


def counts(path, *words):
    """What `bench replay` tells, by its words."""
    told = subprocess.run(["out/bench", "replay", path, *words], check=True, capture_output=True, text=True).stdout.split()
    return {word: float(number) for word, number in zip(told[::2], told[1::2])}


once, tenfold = f"{work}/once", f"{work}/tenfold"
with open(once, "rb") as schedule:
    data = schedule.read()
with open(tenfold, "wb") as schedule:
    schedule.write(data[:HEADER] + 10 * data[HEADER:])

# The least of each of many turns: what else the machine does makes all of them longer, and not all alike.
turns = [(replay(once), counts(once, "times")) for _ in range(12)]
spent, report = min(ran for ran, _ in turns)
told = min((told for _, told in turns), key=lambda it: it["block"])
signed = sum(int(line.split()[5]) for line in report.splitlines() if line.startswith("process "))
if signed != told["claims"]:
    raise SystemExit(f"the report has {signed} claims, bench replay counts {told['claims']:.0f}")
hashing = told["blocks"] * told["block"] / 1e9
print(f"gen 1: {spent:.3f} s, {told['frames']:,.0f} frames, {told['claims']:,.0f} claims, {most_memory(run(once)) / 1e6:.0f} MB at most")
print(f"its signatures and their checks: {told['blocks']:,.0f} blocks of {told['block']:.0f} ns, {hashing:.3f} s; "
      f"the replay takes {spent / hashing:.2f} times as long (goal: at most 2.1)")
ten = min(replay(tenfold)[0] for _ in range(5))
print(f"its events ten times: {ten:.2f} s, {ten / spent:.1f} times as long (goal: at most 10.5), {most_memory(run(tenfold)) / 1e6:.0f} MB at most")
PY
