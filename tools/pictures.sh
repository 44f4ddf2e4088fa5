#!/usr/bin/env bash
# Draws the runs of examples/ and of the stories of docs/TUTORIAL.md into docs/pictures, each as `story draw` draws it.
# docs/EXAMPLES.md shows them. Run it from any folder, with `rt` in the path.
set -eu
top=$(cd "$(dirname "$0")/.." && pwd)
room=$(mktemp -d)
trap 'rm -rf "$room"' EXIT
"$top/story" --prove
for name in $(sed -n 's|.*(pictures/\([a-z_]*\)\.svg).*|\1|p' "$top/docs/EXAMPLES.md"); do
    "$top/story" draw <"$top/examples/$name.rps" >"$top/docs/pictures/$name.svg"
done

# The blocks behind a line that names a story are the stories.
awk -v room="$room" '
    /^```/ { if (inside) { inside = 0; name = "" } else inside = name != ""; next }
    inside { print >(room "/" name); next }
    match($0, /`[a-z]+\.story`/) { name = substr($0, RSTART + 1, RLENGTH - 2) }
' "$top/docs/TUTORIAL.md"
for name in hello liar; do
    "$top/story" draw <"$room/$name.story" >"$top/docs/pictures/$name.svg"
done
