#!/usr/bin/env bash
# How many times as long sealing a frame and opening its datagram take as the hashes of the tag, hashed alone in the same run, for frames
# of 100, 1,000 and 61,000 bytes. Run it from any folder, with `rt` in the path.
set -eu
cd "$(dirname "$0")/../crates/bench"
rt run -- link
