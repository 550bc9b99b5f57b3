#!/bin/sh
# Tells how long `spechint replay` and `spechint plan` take for three traces: the lines of a run that fill
# 64 MiB, a need of any of 200,000 blocks in every second of as many lines, and 4,000,000 needs in reads of 16 blocks.
# Beside each stands the time of `LC_ALL=C sort` over the same lines, of the last trace over a line for each need,
# and the ratio beside the one that bench/replay_ratios.txt keeps. Use: bench/replay.sh [N], where each time is the
# least of N runs (default 3)
here=$(cd "$(dirname "$0")/.." && pwd)
"$here/spechint" plan "$here/samples/reads.trace" >/dev/null || exit 1
exec python3 "$here/bench/replay.py" "$here/crates/spechint/out/spechint" "$here/bench/replay_ratios.txt" "${1:-3}"
