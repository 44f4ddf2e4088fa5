#!/bin/bash
# Prints how fast a schedule is read in pieces: megabytes a second over Submits of 1,024 bytes, beside a plain copy of the same bytes into
# the window and out of it, and millions of Ticks a minute; and how long `gen 1` takes. Run it from any folder, with `rt` in the path.
top=$(cd "$(dirname "$0")/.." && pwd)
cd "$top/crates/bench" || exit 1
rt run <stdin >/dev/null 2>&1 || { echo 'bench is not built' >&2; exit 1; }
spent() { { time -p "$@" >/dev/null; } 2>&1 | awk '/^user|^sys/ { sum += $2 } END { print sum + 0.001 }'; }
pieces=20000
for what in submits copy; do
    awk -v what="$what" -v pieces=$pieces -v spent="$(spent ./out/bench schedules $what $pieces)" \
        'BEGIN { printf "%s: %d MB/s\n", what, pieces * 63 * 1028 / spent / 1000000 }'
done
pieces=1200
awk -v pieces=$pieces -v spent="$(spent ./out/bench schedules ticks $pieces)" \
    'BEGIN { printf "ticks: %d million a minute\n", pieces * 32768 * 60 / spent / 1000000 }'
"$top/rampart" --prove || exit
program="$top/crates/rampart/out/rampart"
awk -v spent="$(spent bash -c "for i in {1..100}; do '$program' gen 1; done")" 'BEGIN { printf "gen 1: %.1f ms\n", spent * 10 }'
