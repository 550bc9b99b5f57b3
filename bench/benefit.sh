#!/bin/sh
# Tells what a shadow is worth for each sample: how often the program waits without one and with one, in rounds of a
# pattern and by no clock. A round of `O1000000D4` is 1,000,000 words of the program, then four fetches; in
# `O1000000T1000000D4` a shadow also makes so many words while the program waits. Beside it stand the hints, the restarts, and, from the trace's lines,
# the fetches of caches of three sizes and the least of any cache of 256 blocks. Use: bench/benefit.sh
here=$(cd "$(dirname "$0")/.." && pwd)
. "$here/samples/ready.sh"
python3 "$here/bench/benefit.py" "$here/spechint" "$here/samples"
