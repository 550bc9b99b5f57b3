#!/bin/sh
# Compares `spechint run` with `spechint plain` on random programs under random patterns of moves: outputs and
# ends must be the same. Use: tests/compare_runs.sh [COUNT [SEED]]
here=$(cd "$(dirname "$0")/.." && pwd)
if ! command -v python3 > /dev/null; then
    echo "compare_runs: skipped: no python3"
    exit 0
fi
"$here/spechint" plain "$here/crates/spechint/data/m1" > /dev/null
[ $? = 7 ] || exit 1
exec python3 "$here/tests/runs.py" "$here/spechint" "$@"
