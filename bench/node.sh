#!/usr/bin/env bash
# How many times as long 10,000 turns of `./rampart node` over a real file take as two bare writes with an fdatasync each, of the sizes of
# what a turn writes. A turn is a Submit of 32 bytes of the one member of a group, which signs five statements and delivers it. The turns
# are run in 20 parts, each on a new journal, and of each time that of an opening without a script is taken off; the bare writes of each part
# follow it. The files lie in a folder of their own under the first word, or under the temporary folder. Run it from any folder, with `rt`
# in the path.
set -eu
top=$(cd "$(dirname "$0")/.." && pwd)
cd "$top/crates/bench"
rt run <stdin >/dev/null 2>&1 || { echo 'bench is not built' >&2; exit 1; }
"$top/rampart" --prove
folder=$(mktemp -d "${1:-${TMPDIR:-/tmp}}/bench_node.XXXXXX")
trap 'rm -rf "$folder"' EXIT
cd "$folder"
python3 - "$top/crates/rampart/out/rampart" "$top/crates/bench/out/bench" <<'PY'
import os
import re
import socket
import subprocess
import sys
import time

PARTS, TURNS = 20, 500
JOURNAL, FIRST_ENTRY = "bench_node_journal", 61

program, bench = sys.argv[1:]


def free_port():
    with socket.socket(socket.AF_INET, socket.SOCK_DGRAM) as any_port:
        any_port.bind(("127.0.0.1", 0))
        return any_port.getsockname()[1]


def opening(script):
    """The seconds of an opening of a new journal, and how long the journal is then."""
    if os.path.exists(JOURNAL):
        os.remove(JOURNAL)
    begun = time.monotonic()
    done = subprocess.run([program, "node", JOURNAL], input=kit + script, stdout=subprocess.PIPE, check=True)
    taken = time.monotonic() - begun
    if done.stdout.count(b"\ndeliver ") != script.count(b"submit"):
        raise SystemExit("not all was delivered")
    return taken, os.path.getsize(JOURNAL)


made = subprocess.run([program, "keygen", "1", "1", "plain:100000", "07" * 32], check=True, stdout=subprocess.PIPE).stdout
kit = re.sub(rb"port 0 \d+", b"port 0 %d" % free_port(), made)
script = b"".join(b"0 submit %064x\n" % n for n in range(TURNS))
ours = bare = 0
for _ in range(PARTS):
    taken, length = opening(script)
    ours += taken - opening(b"")[0]
    size = (length - FIRST_ENTRY) // TURNS
    told = subprocess.run([bench, "bare", str(size), str(TURNS)], check=True, stdout=subprocess.PIPE, text=True).stdout
    bare += int(told.split()[-2]) / 1e6
turns = PARTS * TURNS
print("%d turns of %d bytes: %.0f us each, two bare writes: %.0f us, %.2f times" % (turns, size, ours / turns * 1e6, bare / turns * 1e6, ours / bare))
PY
