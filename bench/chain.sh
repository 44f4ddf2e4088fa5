#!/usr/bin/env bash
# The time of 1,000 proofs, one view after another, each of a view of 16 members with LMS H10 W4, beside the bare verification of their 11,000
# signatures; and of three hostile frames the time that a guard takes to ask whom they convict, beside that of hearing them: 46 forged Ends
# of one signer with LMS H5 W8, 255 groups of 16 empty signatures, and 255 forged Ends of one signer with plain keys. --folder names a folder
# for the guard's journal, --runs another number of runs. Run it from any folder, with `rt` in the path.
set -eu
top=$(cd "$(dirname "$0")/.." && pwd)
cd "$top/crates/bench"
rt run <stdin >/dev/null 2>&1 || { echo 'bench is not built' >&2; exit 1; }
./out/bench chain
"$top/rampart" --prove >/dev/null
exec python3 "$top/bench/chain.py" "$@"
