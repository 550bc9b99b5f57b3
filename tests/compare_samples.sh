#!/bin/sh
# Runs each sample under `spechint plain` and as a program of this machine, and compares what they
# print and how they end. Skips where the cross compiler or a compiler of this machine is missing.
here=$(cd "$(dirname "$0")/.." && pwd)
if ! command -v cc > /dev/null; then
    echo "compare_samples: skipped: no cc"
    exit 0
fi
. "$here/samples/ready.sh"
cd "$here/samples" || exit 1

# Files of no bytes, of a block, of more than a piece, one that isn't there, and a block of 20 * 30 * 40 bytes.
: > "$work/empty"
head -c 4096 /dev/zero | tr '\0' 'a' > "$work/block"
seq 1 30000 > "$work/numbers"
cp search.c "$work/source"
seq 1 6000 | head -c 24000 > "$work/cube"
cc -O2 -c -o "$work/object" search.c || exit 1

differ=0
runs=0
compare() {
    name=$1
    shift
    (cd "$work" && "./$name" "$@" > own.out 2> own.err; echo $? > own.code)
    (cd "$work" && "$here/spechint" plain "$here/samples/out/$name" "$@" > plain.out 2> plain.err; echo $? > plain.code)
    runs=$((runs + 1))
    for part in out err code; do
        if ! cmp -s "$work/own.$part" "$work/plain.$part"; then
            echo "compare_samples: $name $*: $part differs"
            differ=1
        fi
    done
}

for name in search count sums slice sections copy; do
    cc -O2 -o "$work/$name" "$name.c" || exit 1
done
compare search 99 numbers source empty
compare search none numbers block
compare search int source absent
compare count empty block numbers source
compare count absent source
compare sums empty block numbers source
compare slice cube 20 30 40 x 7
compare slice cube 20 30 40 y 29
compare slice cube 20 30 40 z 0
compare slice cube 20 30 41 z 40
compare slice cube 20 30 40 x 20
compare sections object sections source absent
compare copy "$(cksum < "$work/numbers" | cut -d ' ' -f 1)" numbers
compare copy 1 numbers
compare copy 1 absent
[ $differ = 0 ] && echo "compare_samples: $runs runs, all agree"
exit $differ
