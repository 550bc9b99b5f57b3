#!/bin/sh
# Tells how many cached blocks a second the cache gives, by a program that needs a million.
# Use: bench/cache.sh
here=$(cd "$(dirname "$0")/.." && pwd)
program="$here/crates/cache_bench/out/cache_bench"
if [ ! -x "$program" ]; then
    (cd "$here/crates/cache_bench" && rt run) >"$here/cache_bench.log" 2>&1
    if [ ! -x "$program" ]; then
        echo "cache.sh: the build failed; see $here/cache_bench.log" >&2
        exit 1
    fi
fi
exec python3 "$here/bench/speed.py" cache 1000000 needs "$program"
