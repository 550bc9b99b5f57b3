#!/bin/sh
# Compares `spechint plain` with `qemu-riscv64 -singlestep`, which translates one instruction at a time,
# over five programs: the three samples over files, and two that compute. Tells the processor's time of
# each, the least of N runs (default 3), and how many times as quick `plain` is; and, where valgrind is, how
# many instructions of this machine an instruction of the program takes, beside the numbers in
# bench/host_instructions.txt. Use: bench/qemu.sh [N]
# It needs Debian's packages gcc-riscv64-unknown-elf, picolibc-riscv64-unknown-elf and qemu-user, and skips
# where they are missing. spechint is built before, by a first run.
here=$(cd "$(dirname "$0")/.." && pwd)
gcc=riscv64-unknown-elf-gcc
picolibc=/usr/lib/picolibc/riscv64-unknown-elf
if ! command -v $gcc > /dev/null || [ ! -d $picolibc ] || ! command -v qemu-riscv64 > /dev/null; then
    echo "qemu.sh: skipped: no $gcc with picolibc, or no qemu-riscv64"
    exit 0
fi
work=$(mktemp -d) || exit 1
trap 'rm -rf "$work"' EXIT
trap 'exit 1' HUP INT TERM

# Linux on RISC-V has no open, so that the samples open by openat here, whose file stands for the folder.
sed 's/call(1024, (long)name, flags, 0)/call(56, -100, (long)name, flags)/' "$here/samples/calls.c" >"$work/calls.c"
for source in "$here"/samples/search.c "$here"/samples/count.c "$here"/samples/sums.c "$here"/bench/primes.c "$here"/bench/sorts.c; do
    $gcc -march=rv64im -mabi=lp64 -mcmodel=medany -O2 -Wall -Wextra -Wno-unused-function -isystem $picolibc/include \
        -nostdlib -static -o "$work/$(basename "$source" .c)" "$here/samples/start.S" "$work/calls.c" "$source" \
        -L$picolibc/lib/rv64im/lp64 -lc -lgcc || exit 1
done

# Text of about 8 MB, and a front of it that valgrind can run.
seq 1 1100000 >"$work/numbers"
head -c 65536 "$work/numbers" >"$work/few"

"$here/spechint" plain "$work/primes" 0 >/dev/null || exit 1
exec python3 "$here/bench/qemu.py" "$here/crates/spechint/out/spechint" "$work" "$here/bench/host_instructions.txt" "${1:-3}"
