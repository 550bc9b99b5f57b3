#!/bin/sh
# Tells what `spechint trace --uses` costs beside `spechint trace`: the instructions of this machine, by valgrind's
# callgrind, over three samples and three patterns. Its last figures stand in uses_ratios.txt.
here=$(cd "$(dirname "$0")/.." && pwd)
if ! command -v valgrind > /dev/null; then
    echo "uses.sh: skipped: no valgrind"
    exit 0
fi
. "$here/samples/ready.sh"
seq 1 1500 > "$work/numbers"
seq 1 6000 | head -c 24000 > "$work/cube"

# How many instructions the program takes with these words.
instructions() {
    (cd "$work" && valgrind --tool=callgrind --callgrind-out-file=/dev/null "$here/crates/spechint/out/spechint" "$@" 2>&1 > /dev/null) |
        sed -n 's/.*Collected : *//p'
}

compare() {
    pattern=$1
    shift
    image="$here/samples/out/$1"
    name=$1
    shift
    without=$(instructions trace --pattern "$pattern" "$image" "$@")
    with=$(instructions trace --uses --pattern "$pattern" "$image" "$@")
    echo "$name $pattern $(awk "BEGIN { printf \"%.2f\", $with / $without }")"
}

for pattern in O1S600D1 O1D1 O100S100D1; do
    compare "$pattern" search 99 numbers
    compare "$pattern" count numbers
    compare "$pattern" slice cube 20 30 40 x 7
done
