#!/bin/sh
# Compares `spechint trace --uses` with `spechint trace` over samples and patterns: without its use lines it is the
# same trace, each use line counts the instructions since the last restart, and no restart has two. Skips where the
# cross compiler is missing.
here=$(cd "$(dirname "$0")/.." && pwd)
. "$here/samples/ready.sh"
seq 1 2000 > "$work/numbers"
seq 1 6000 | head -c 24000 > "$work/cube"

differ=0
runs=0
uses=0
compare() {
    pattern=$1
    name=$2
    shift 2
    (cd "$work" && "$here/spechint" trace --pattern "$pattern" "$here/samples/out/$name" "$@" > without 2> without.err; echo $? > without.code)
    (cd "$work" && "$here/spechint" trace --uses --pattern "$pattern" "$here/samples/out/$name" "$@" > with 2> with.err; echo $? > with.code)
    runs=$((runs + 1))
    awk '$3 != "use"' "$work/with" > "$work/taken"
    for part in taken:without with.err:without.err with.code:without.code; do
        if ! cmp -s "$work/${part%:*}" "$work/${part#*:}"; then
            echo "compare_uses: $pattern $name: $part differs"
            differ=1
        fi
    done
    # A restart is told before its read is completed, so its number is that of the instructions before it.
    if ! awk '$3 == "restart" { from = $1; open = 1 }
        $3 == "use" { if (!open || $4 != $1 - from) bad = 1; open = 0 }
        END { exit bad }' "$work/with"; then
        echo "compare_uses: $pattern $name: a use line is out of place"
        differ=1
    fi
    uses=$((uses + $(awk '$3 == "use"' "$work/with" | wc -l)))
}

for pattern in O1S600D1 O1D1 O100S100D1; do
    compare "$pattern" search 99 numbers
    compare "$pattern" count numbers
    compare "$pattern" slice cube 20 30 40 x 7
done
[ $differ = 0 ] && echo "compare_uses: $runs runs with $uses uses, all agree"
exit $differ
