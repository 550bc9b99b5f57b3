#!/bin/sh
# Compares `spechint replay` and `spechint plan` with what tests/plans.py computes by itself: on traces of random
# reads, on short ones by all plans that there are, and on bad lines of every kind. Use: tests/compare_plans.sh
here=$(cd "$(dirname "$0")/.." && pwd)
if ! command -v python3 > /dev/null; then
    echo "compare_plans: skipped: no python3"
    exit 0
fi
"$here/spechint" plan "$here/samples/reads.trace" > /dev/null || exit 1
exec python3 "$here/tests/plans.py" "$here/spechint"
