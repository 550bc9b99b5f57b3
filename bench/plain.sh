#!/bin/sh
# Tells of `spechint plain`: how long the start of a program takes, what memory a program of three
# words and one that touches 100 MiB hold, how many bytes a second are read of a file of 64 MiB, and how many
# are read and written by a program that copies it.
# Use: bench/plain.sh
here=$(cd "$(dirname "$0")/.." && pwd)
images=$(mktemp -d) || exit 1
trap 'rm -rf "$images"' EXIT
trap 'exit 1' HUP INT TERM
. "$here/bench/images.sh"

# Exits with 0.
image 0x00000513 0x05D00893 0x00000073 >"$images/start"

# Stores to 25,600 pages from 0x1000000 on.
image 0x010002B7 0x00006337 0x40030313 0x000013B7 0x0062B023 0x007282B3 0xFFF30313 0xFE031AE3 \
    0x00000513 0x05D00893 0x00000073 >"$images/touch"

# Opens the file that its second argument names, and reads it in pieces of 65,536 bytes.
image 0x01013583 0x00000513 0x00000613 0x03800893 0x00000073 0x00050493 \
    0x00048513 0x002005B7 0x00010637 0x03F00893 0x00000073 0xFE0516E3 \
    0x00000513 0x05D00893 0x00000073 >"$images/read"

# The same, and writes each piece to standard output.
image 0x01013583 0x00000513 0x00000613 0x03800893 0x00000073 0x00050493 \
    0x00048513 0x002005B7 0x00010637 0x03F00893 0x00000073 0x00050C63 \
    0x00050613 0x00100513 0x04000893 0x00000073 0xFD9FF06F \
    0x00000513 0x05D00893 0x00000073 >"$images/copy"
head -c 67108864 /dev/zero >"$images/data"

# The first run builds the program where it isn't built.
"$here/spechint" plain "$images/start" || exit 1

measure() {
    name=$1
    count=$2
    thing=$3
    shift 3
    python3 "$here/bench/speed.py" "$name" "$count" "$thing" "$here/spechint" plain "$@" || exit 1
}

measure start 1 start "$images/start"
measure touch 25600 pages "$images/touch"
measure read 67108864 bytes "$images/read" "$images/data"
python3 "$here/bench/speed.py" copy 67108864 bytes sh -c 'exec "$@" >/dev/null' sh "$here/spechint" plain "$images/copy" "$images/data" || exit 1
