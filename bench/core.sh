#!/usr/bin/env bash
# The time of the cores of 4 and of 16 members that hand each other their frames in one program, with plain keys: a claim, signed or heard,
# in the first and in the last hundred of 1,000 places, and which share of the whole time the SHA-256 blocks of the signatures take,
# hashed alone in the same run. Run it from any folder, with `rt` in the path.
set -eu
cd "$(dirname "$0")/../crates/bench"
for members in 4 16; do
    echo "$members members"
    rt run -- core "$members" 10
done
