#!/usr/bin/env bash
# The time of a pool of 16 members that hears 1,000, 10,000 and 100,000 claims, on up to 1,024 places with batches of 16 messages, where
# five members say something else on every slot: of `take` without the check of its signature, of `certificate` and of the placed
# length with one of the placed batches, beside their goals; and the bytes of statements and signatures a claim, beside the memory that
# a claim takes in all.
# Run it from any folder, with `rt` in the path.
set -eu
here=$(cd "$(dirname "$0")" && pwd)
cd "$here/../crates/bench"
rt run <stdin >/dev/null 2>&1 || { echo 'bench is not built' >&2; exit 1; }
PYTHONPATH=$here python3 - <<'PY'
import subprocess

from memory import most_memory

SIZES = [1000, 10000, 100000]


def run(claims):
    """The program's words with their numbers, and the most memory that it had, in bytes."""
    child = subprocess.Popen(["out/bench", "pool", str(claims)], stdout=subprocess.PIPE, text=True)
    most = most_memory(child)
    words = child.stdout.read().split()
    if child.returncode:
        raise SystemExit("bench pool failed")
    return {word: float(number) for word, number in zip(words[::2], words[1::2])}, most


_, little = run(101)
told = []
for size in SIZES:
    times, most = run(size)
    times["take"] -= times.pop("check")
    told.append(times)
    print(f"{size:7,} claims: take {times['take']:.0f} ns, certificate {times['certificate']:.0f} ns, "
          f"placed length {times['placed']:.2f} ns, {times['bytes']:.0f} bytes a claim")
print(f"memory: {(most - little) / SIZES[-1]:.0f} bytes a claim at {SIZES[-1]:,}")
for what, goal in [("take", 1.5), ("certificate", 3), ("placed", 1.5)]:
    ratio = told[-1][what] / told[0][what]
    print(f"{what}: {ratio:.2f} times as long at {SIZES[-1]:,} claims as at {SIZES[0]:,} (goal: at most {goal})")
print(f"take at {SIZES[1]:,} claims: {told[1]['take']:.0f} ns (goal: at most 200)")
PY
