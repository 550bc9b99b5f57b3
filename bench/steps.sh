#!/bin/sh
# Tells how many instructions a second `spechint plain` runs, of four loops: one that counts, one
# that stores, one that loads, and one that walks through 8 MiB of memory. Each goes round N times (default 5000000).
# Use: bench/steps.sh [N]
here=$(cd "$(dirname "$0")/.." && pwd)
rounds=${1:-5000000}
case $rounds in
    '' | 0* | *[!0-9]* | ??????????*)
        echo "steps.sh: N is a whole number from 1 to 999999999" >&2
        exit 2
        ;;
esac
images=$(mktemp -d) || exit 1
trap 'rm -rf "$images"' EXIT
trap 'exit 1' HUP INT TERM

. "$here/bench/images.sh"

# The count of rounds into x6, and then rounds of these words: it ends each by taking one from x6 and
# going back, and at last exits with 0: loop WORD..
loop() {
    low=$((rounds % 4096))
    high=$((rounds / 4096))
    if [ "$low" -ge 2048 ]; then
        high=$((high + 1))
    fi
    back=$((8192 - 4 * ($# + 1)))
    # A branch's distance back, by its bits 12, 11, 10 to 5 and 4 to 1.
    far=$(((back / 4096 % 2) << 31 | (back / 32 % 64) << 25 | (back / 2 % 16) << 8 | (back / 2048 % 2) << 7))
    image \
        $((high << 12 | 0x337)) \
        $((low << 20 | 0x3031B)) \
        "$@" \
        0xFFF30313 \
        $((far | 0x31063)) \
        0x00000513 \
        0x05D00893 \
        0x00000073
}

# Runs a loop of so many instructions a round, and tells its speed: measure NAME COUNT.
measure() {
    python3 "$here/bench/speed.py" "$1" $((rounds * $2 + 5)) instructions \
        "$here/spechint" plain "$images/$1" || exit 1
}

# ADDI x5,x5,1; SD x5,-8(x2); LD x5,-8(x2);
# LUI x12,0x1000; ADD x11,x9,x12; LD x8,0(x11); ADDI x9,x9,64; LUI x13,0x800; ADDI x13,x13,-8; AND x9,x9,x13
loop 0x00128293 >"$images/count"
loop 0xFE513C23 >"$images/store"
loop 0xFF813283 >"$images/load"
loop 0x01000637 0x00C485B3 0x0005B403 0x04048493 0x008006B7 0xFF868693 0x00D4F4B3 >"$images/walk"

# The first run builds the program where it isn't built.
first=$rounds
rounds=1
loop 0x00128293 >"$images/first"
rounds=$first
"$here/spechint" plain "$images/first" || exit 1

measure count 3
measure store 3
measure load 3
measure walk 9
