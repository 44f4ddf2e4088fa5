#!/usr/bin/env bash
# How long a journal of 100,000 entries is opened by `node`, and by `resume` from a snapshot near its end, beside the SHA-256 of the file
# alone. The journal is that of one of four nodes with plain keys. Run it from any folder, with `rt` in the path.
set -eu
cd "$(dirname "$0")/.."
./rampart --prove >/dev/null
(cd crates/bench && rt run <stdin >/dev/null 2>&1) || { echo 'bench is not built' >&2; exit 1; }
exec python3 bench/resume.py "$@"
