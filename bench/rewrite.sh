#!/bin/sh
# Tells how many bytes of rewritten file a second `spechint rewrite` puts, and what memory it holds, for a
# text of 4 KiB and one of 1 MiB.
# Use: bench/rewrite.sh
here=$(cd "$(dirname "$0")/.." && pwd)
images=$(mktemp -d) || exit 1
trap 'rm -rf "$images"' EXIT
trap 'exit 1' HUP INT TERM
. "$here/bench/images.sh"

# An image of one segment, which is its text of so many words ADDI x0,x0,0: text_of COUNT.
text_of() {
    size=$(($1 * 4))
    image | head -c 96
    little "$size" 8 && little "$size" 8 && little 4096 8
    python3 -c "import sys; sys.stdout.buffer.write(b'\x13\0\0\0' * $1)"
}

measure() {
    text_of "$2" >"$images/$1"
    "$here/spechint" rewrite "$images/$1" >"$images/file" || exit 1
    # shellcheck disable=SC2016
    python3 "$here/bench/speed.py" "$1" "$(wc -c <"$images/file")" bytes \
        sh -c 'exec "$1" rewrite "$2" >"$3"' sh "$here/spechint" "$images/$1" "$images/file" || exit 1
}

measure small 1024
measure large 262144
