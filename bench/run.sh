#!/bin/sh
# Compares `spechint run` with `spechint plain` over the samples: the processor's time of each, the least of N runs
# (default 3), and how many times as long `run` takes, with the default pattern, with a shadow that moves only while
# the program waits, and with one that always moves. Its last figures stand in run_ratios.txt. Use: bench/run.sh [N]
here=$(cd "$(dirname "$0")/.." && pwd)
. "$here/samples/ready.sh"
seq 1 400000 >"$work/numbers"
python3 "$here/bench/run.py" "$here/crates/spechint/out/spechint" "$here/samples/out" "$work" "${1:-3}"
