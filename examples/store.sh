#!/bin/sh
# A session with a store that four nodes keep, on this machine: ./examples/store.sh
#
# A client has process 0 submit a request that is put in words, has the nodes exchange what they have to say, shows what process 0 delivered and
# replied, each with its meaning, and then asks what more than f of the members answered. Of a node's line the first 64 characters are shown.
# Each node has the kit of its own process, a journal, and a pipe for its script. `rampart` and `store` must be proved before:
# ./rampart --prove; ./store --prove
set -eu
top=$(cd "$(dirname "$0")/.." && pwd)
members='0 1 2 3'
folder=$(mktemp -d)
cd "$folder"

# Ends the scripts, and so the nodes.
end() {
    exec 3>&- 4>&- 5>&- 6>&-
    wait
    rm -rf "$folder"
}

# Hands a line of its script to the node of this process.
hand() {
    echo "$2" >&$(($1 + 3))
}

# How many lines of told_P begin with this word.
count() {
    grep -c "^$2" "told_$1" || true
}

# Has each node receive what has come, several times in turn.
exchange() {
    for turn in 1 2 3 4 5 6; do
        for p in $members; do
            before=$(count "$p" recv)
            hand "$p" "$p recv 100"
            until [ "$(count "$p" recv)" -gt "$before" ]; do sleep 0.02; done
        done
    done
}

request() {
    echo "> $1"
    shown=$(wc -l < told_0)
    line=$(echo "0 $1" | "$top/store" assemble)
    hand 0 "$line"
    exchange
    tail -n "+$((shown + 1))" told_0 | sed -e '/^recv/d' -e 's/^\([^ ].\{63\}\).*/\1/'
    cat kit told_? | "$top/store" ask "${line##* }" | "$top/rampart" ask "${line##* }" | "$top/store" tell
}

"$top/rampart" keygen 4 4 plain:1000 "$(printf %064d 0)" > kit
for p in $members; do
    mkfifo "type_$p"
    { "$top/rampart" serve "journal_$p" | "$top/store" tell; } < "type_$p" > "told_$p" &
done
exec 3> type_0 4> type_1 5> type_2 6> type_3
trap end EXIT
for p in $members; do
    grep -v "^\(host\|pair\) [^$p] " kit >&$((p + 3))
    until [ "$(count "$p" statekey)" = 1 ]; do sleep 0.02; done
done

request 'put 1 "colour" "blue"'
request 'get 2 "colour"'
request 'swap 3 "colour" "red" "green"'
