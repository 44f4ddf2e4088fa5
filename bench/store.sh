#!/usr/bin/env bash
# The time of a store with 4,096 keys of 64 bytes and values of 512: of `apply` for a Get, a Set of a present key and a Remove, of the
# state beside a plain copy of as many bytes in the same run, and of the store of that state, beside their goals. Of each the quickest of
# nine runs counts. And where valgrind is there, how often 4,096 Gets, Removes and refused Exchanges allocate. Run it from any folder, with
# `rt` in the path.
set -eu
here=$(cd "$(dirname "$0")" && pwd)
cd "$here/../crates/bench"
rt run <stdin >/dev/null 2>&1 || { echo 'bench is not built' >&2; exit 1; }
out/bench store
command -v valgrind >/dev/null || exit 0

# allocations COMMAND NUMBER: how often the program allocates that carries out so many of 4,096 requests
allocations() {
    valgrind out/bench store "$1" "$2" 2>&1 >/dev/null | sed -n 's/.*total heap usage: \([0-9,]*\) allocs.*/\1/p' | tr -d ,
}
for command in get remove exchange; do
    none=$(allocations "$command" 0)
    all=$(allocations "$command" 4096)
    echo "4,096 requests of $command allocate $((all - none)) times (goal: 0)"
done
