#!/bin/bash
# Prints how many megabytes a second `split_frame` reads, over Bundles of 1, 16 and 255 groups, each of a statement of
# 16 bytes and a signature of 32. Run it from any folder, with `rt` in the path.
cd "$(dirname "$0")/../crates/bench" || exit 1
rt run <stdin >/dev/null 2>&1 || { echo 'bench is not built' >&2; exit 1; }
while read -r groups times; do
    spent=$( { time -p ./out/bench frames "$groups" "$times" >/dev/null; } 2>&1 | awk '/^user/ { print $2 }')
    awk -v groups="$groups" -v times="$times" -v spent="$spent" 'BEGIN {
        bytes = (3 + 54 * groups) * times
        printf "%3d groups: %d MB/s\n", groups, bytes / (spent + 0.001) / 1000000
    }'
done <<LIST
1 50000000
16 10000000
255 600000
LIST
