#!/bin/sh
# Changes valid images, rewritten files and traces at random and gives them to the commands: each must end by itself,
# quickly, with a status of the README's table. Use: tests/hostile_changes.sh [SPECHINT [COUNT [SEED]]]
here=$(cd "$(dirname "$0")/.." && pwd)
if ! command -v python3 > /dev/null; then
    echo "hostile_changes: skipped: no python3"
    exit 0
fi
program=${1:-$here/spechint}
[ $# -gt 0 ] && shift
"$program" plain "$here/crates/spechint/data/m1" > /dev/null
[ $? = 7 ] || exit 1
exec python3 "$here/tests/hostile_changes.py" "$program" "$@"
