#!/usr/bin/env bash
# From a submit to its delivery by all four nodes of a group, one message at a time and sixteen at once, beside the syncs in its way, timed
# in the same run, and beside `etcd` where that is installed. --folder names a folder on the disk that is to be measured.
set -eu
cd "$(dirname "$0")/.."
./rampart --prove >/dev/null
exec python3 bench/group.py "$@"
