#!/bin/sh
# Refuses `spechint` its memory and its calls on files and outputs, one by one, from one on, and by a limit on its
# address space. Each run must end as one without refusal, or by the status that the README's table has for it.
# Use: tests/hostile_calls.sh [SPECHINT [MOST]]; of more than MOST calls of a job (200) so many are refused, among them
# the first and the last ones; with 0 all are, which takes some ten minutes of a processor.
here=$(cd "$(dirname "$0")/.." && pwd)
for tool in python3 cc; do
    if ! command -v $tool > /dev/null; then
        echo "hostile_calls: skipped: no $tool"
        exit 0
    fi
done
program=${1:-$here/spechint}
"$program" plain "$here/crates/spechint/data/m1" > /dev/null
[ $? = 7 ] || exit 1
[ "$program" = "$here/spechint" ] && program=$here/crates/spechint/out/spechint
work=$(mktemp -d) || exit 1
trap 'rm -rf "$work"' EXIT
cc -O2 -shared -fPIC -o "$work/refuse.so" "$here/tests/refuse.c" || exit 1
python3 "$here/tests/hostile_calls.py" "$program" "$work" "${2:-200}"
