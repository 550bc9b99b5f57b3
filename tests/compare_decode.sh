#!/usr/bin/env bash
# Compares the verdict of `decode` on random words with that of llvm-mc's disassembler for RV64IM.
# Run it at the repository's top, once the crates are proved: tests/compare_decode.sh [COUNT [SEED]]
#
# Left out are the opcodes whose rows differ on purpose: SYSTEM (the CSR instructions and returns
# of other privileges, which llvm-mc knows and RV64IM leaves out), MISC-MEM (FENCE.I, and fields of
# FENCE that the ISA leaves free and llvm-mc wants to be zero) and custom-0 (the gate instructions).
# The tests of rv_decode have these.
set -euo pipefail
cd "$(dirname "$0")/.."

if ! command -v llvm-mc > /dev/null; then
    echo "compare_decode: skipped, llvm-mc is not installed"
    exit 0
fi

program=crates/decode_words/out/decode_words
if [ ! -x "$program" ]; then
    (cd crates/decode_words && rt run > /dev/null)
fi

work=$(mktemp -d)
trap 'rm -r "$work"' EXIT

python3 - "${1:-20000}" "${2:-1}" > "$work/words" << 'END'
import random, sys

count, seed = int(sys.argv[1]), int(sys.argv[2])
left_out = {0b1110011, 0b0001111, 0b0001011}
opcodes = [0b0110111, 0b0010111, 0b1101111, 0b1100111, 0b1100011, 0b0000011, 0b0100011,
           0b0010011, 0b0011011, 0b0110011, 0b0111011]
high = [0b0000000, 0b0100000, 0b0000001]
random.seed(seed)
made = 0
while made < count:
    word = random.getrandbits(32)
    kind = made % 4
    if kind > 0:
        word = word & ~0x7F | random.choice(opcodes)
    if kind > 1:
        # near the rows that fix funct7: one of its values, or one bit away
        funct7 = random.choice(high) ^ (1 << random.randrange(7) if kind == 3 else 0)
        word = word & 0x01FFFFFF | funct7 << 25
    if word & 0x7F not in left_out:
        print(word)
        made += 1
END

"$program" < "$work/words" > "$work/ours"

# A word in brackets is disassembled by itself; an invalid one gives a warning that names its line.
python3 -c '
import sys
for line in sys.stdin:
    print("[" + " ".join(f"0x{byte:02x}" for byte in int(line).to_bytes(4, "little")) + "]")
' < "$work/words" > "$work/bytes"
llvm-mc -triple=riscv64 -mattr=+m -disassemble "$work/bytes" > /dev/null 2> "$work/warnings" || true

python3 - "$work" << 'END'
import re, sys

work = sys.argv[1]
invalid = {int(m.group(1)) for m in re.finditer(r":(\d+):\d+: (?:warning|error): invalid", open(f"{work}/warnings").read())}
words = open(f"{work}/words").read().split()
ours = open(f"{work}/ours").read().split("\n")[: len(words)]
wrong = 0
for number, (word, verdict) in enumerate(zip(words, ours, strict=True), 1):
    theirs = "illegal" if number in invalid else "legal"
    if verdict != theirs:
        wrong += 1
        print(f"0x{int(word):08X}: decode says {verdict}, llvm-mc says {theirs}")
legal = ours.count("legal")
print(f"compare_decode: {len(words)} words, {legal} legal, {wrong} verdicts differ")
sys.exit(1 if wrong or not legal or not invalid else 0)
END
