#!/usr/bin/env bash
# The time of a kit of four trees beside that of the hashes that the trees take, hashed alone.
set -eu
cd "$(dirname "$0")/.."
seed=000102030405060708090a0b0c0d0e0f101112131415161718191a1b1c1d1e1f
block=$(bench/lms.sh | sed -n 's/^one block: \([0-9]*\) ns$/\1/p' | head -n 1)
./rampart --prove
python3 - "$block" "$seed" <<'PY'
import subprocess
import sys
import time

block, seed = float(sys.argv[1]), sys.argv[2]
start = time.monotonic()
subprocess.run(["./rampart", "keygen", "4", "4", "lms:6:3", seed], check=True, stdout=subprocess.DEVNULL)
taken = time.monotonic() - start
# As `bench lms` counts them: 1,135,614 blocks for each tree of height 10 with W4.
hashes = 4 * 1135614 * block / 1e9
print(f"keygen 4 4 lms:6:3: {taken:.2f} s, {taken / hashes:.2f} times its trees' {4 * 1135614:,} blocks of {block:.0f} ns (goal: at most 0.55)")
PY
