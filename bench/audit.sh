#!/usr/bin/env bash
# The time and the memory of an audit of four nodes with plain keys that delivered 27,000 messages in 27 views, beside taking the same entries
# alone and beside the SHA-256 blocks of their signatures. Each figure is the least of three runs. --folder names a folder on another disk
# than memory, for the journals; --messages another number.
set -eu
top=$(cd "$(dirname "$0")/.." && pwd)
cd "$top/crates/bench"
rt run <stdin >/dev/null 2>&1 || { echo 'bench is not built' >&2; exit 1; }
"$top/rampart" --prove >/dev/null
exec python3 "$top/bench/audit.py" "$@"
