# What `rampart`, `story` and `web/build` share: a folder in which a crate and each below it are proved as the gate does, from nothing, side
# by side, as many at a time as processors and memory allow. What a build or a gate on this machine has proved before is taken as it is, so
# a build that was broken off goes on where it stopped. A script that reads this file has set `top`, the top of the repository, `program`,
# the crate's name, and `log`, a file for the lines of the build.

# Says why there is no answer, in a line.
stop() {
    echo "$program: $1" >&2
    exit 125
}

# A folder, `room`, that goes when the script ends.
make_room() {
    room=$(mktemp -d)
    trap 'rm -rf "$room"' EXIT
    trap 'exit 130' INT
    trap 'exit 143' TERM HUP
}

needs_rt() {
    command -v rt >/dev/null || stop "the toolchain's command rt is not in the path"
}

# The crates that the program stands on, lowest first, and then its own.
crates() {
    awk -F: -v program="$program" '
        /^[a-z]/ { split($1, name, " "); below[name[1]] = $2 }
        END { add(program) }
        function add(name,   names, n, i) {
            if (!(name in below) || name in added) return
            added[name]
            n = split(below[name], names, " ")
            for (i = 1; i <= n; i++) add(names[i])
            print name
        }' "$top/crates.txt"
}

# Copies what a proof of these crates reads to a folder, as the top of a repository: none of the other crates, and no must-fail edits.
copy_to() {
    mkdir "$1/.git" "$1/crates"
    cp "$top/HANDLES" "$1"
    for crate in $crates; do
        grep -E "^$crate( staticlib)?:" "$top/crates.txt" >>"$1/crates.txt"
        mkdir "$1/crates/$crate"
        for part in src specs proofs args stdin stdout; do
            [ ! -e "$top/crates/$crate/$part" ] || cp -R "$top/crates/$crate/$part" "$1/crates/$crate"
        done
    done
}

# Reads the lines of a build, keeps them, and says on standard error which crates are done.
follow() {
    count=$(echo "$crates" | wc -l)
    done=0
    while IFS= read -r line; do
        echo "$line"
        case $line in
        "rt: "*" its tests are proved") ;;
        "rt: "*" proved" | "rt: "*" is kept: "*)
            done=$((done + 1))
            name=${line#rt: }
            echo "$program: $done of $count crates proved, $(($(date +%s) - start)) s: ${name%% *}" >&2
            ;;
        esac
    done >"$log"
}

# Says which crate is not proved, and the last lines of its part of the log.
not_built() {
    crate=$(sed -n 's/^rt: \([a-z0-9_]*\) NOT PROVED$/\1/p' "$log" | head -n 1)
    echo "$program: not built${crate:+, $crate is not proved} (log: $log):" >&2
    sed "/^rt: ${crate:-no crate} NOT PROVED\$/q" "$log" | grep -v -e '^statements ' -e '^fn .*: proved$' | tail -n 20 >&2
    exit 125
}

# Proves the crates in a room of their own, whose crates/NAME/out has what was built of them.
prove() {
    start=$(date +%s)
    crates=$(crates)
    make_room
    echo "$program: building, twenty to thirty minutes from nothing (log: $log)" >&2
    copy_to "$room"
    (cd "$room" && rt ci 2>&1 </dev/null) | follow
    tail -n 1 "$log" | grep -q ' passed, 0 failed$' || not_built
}
