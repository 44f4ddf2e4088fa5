#!/bin/bash
# Prints the time of a turn that a journal in a real file takes in, an entry of 1,031 bytes, beside that of two bare writes of the
# same sizes, each with an fdatasync, in the same run; and the time of reading 100,000 entries of 142 bytes, beside that of reading
# their bytes. The files lie in a folder of their own under the first word, or under the temporary folder. Run it from any folder,
# with `rt` in the path.
cd "$(dirname "$0")/../crates/bench" || exit 1
rt run <stdin >/dev/null 2>&1 || { echo 'bench is not built' >&2; exit 1; }
program=$PWD/out/bench
folder=$(mktemp -d "${1:-${TMPDIR:-/tmp}}/bench_journal.XXXXXX") && cd "$folder" || exit 1
"$program" journal | awk '
    /^[0-9]/ { turns = $1; entries = $5 }
    /^turns/ {
        printf "a turn: %.0f us, two bare writes: %.0f us, %.2f times\n", $2 / turns, $4 / turns, $2 / $4
        printf "%d entries: %.0f ms to read, their bytes: %.0f ms\n", entries, $6 / 1000, $8 / 1000
    }'
rm -rf "$folder"
