#!/bin/sh
# Builds the samples into samples/out/, as static RV64IM executables. It needs Debian's packages
# gcc-riscv64-unknown-elf and picolibc-riscv64-unknown-elf, and skips where they are missing.
cd "$(dirname "$0")" || exit 1
gcc=riscv64-unknown-elf-gcc
picolibc=/usr/lib/picolibc/riscv64-unknown-elf
if ! command -v $gcc > /dev/null || [ ! -d $picolibc ]; then
    echo "skipped: no $gcc with picolibc"
    exit 0
fi
mkdir -p out
for name in search count sums slice sections copy; do
    $gcc -march=rv64im -mabi=lp64 -mcmodel=medany -O2 -Wall -Wextra -isystem $picolibc/include \
        -nostdlib -static -o out/$name start.S calls.c $name.c \
        -L$picolibc/lib/rv64im/lp64 -lc -lgcc || exit 1
done
