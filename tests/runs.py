#!/usr/bin/env python3
"""Compares `spechint run` with `spechint plain` on random programs under random patterns of moves.

Each program opens a file, makes some thirty random instructions, among them seeks, reads, writes and jumps, and
exits. Where `plain` comes to an end, `run` must end so too, with the same bytes on both outputs; where the turns of
`plain` are over, what one of the two put must begin what the other put. Each tenth program is also run from its
rewritten file.

Use: runs.py SPECHINT [COUNT [SEED]]. It ends with 1 where an answer isn't as wanted.
"""

import os
import random
import struct
import subprocess
import sys
import tempfile
from concurrent.futures import ThreadPoolExecutor

TEXT_START = 0x1_00B0
DATA_START = 0x20_0000
DATA_BYTES = 0x4000
STRINGS = b"data\0\0\0\0done\n\0\0\0"

# ---- instructions (RISC-V Unprivileged ISA 20191213, section 2.3 and chapter 24)


def i_type(opcode, rd, funct3, rs1, immediate):
    return opcode | rd << 7 | funct3 << 12 | rs1 << 15 | (immediate & 0xFFF) << 20


def r_type(opcode, rd, funct3, rs1, rs2, funct7):
    return opcode | rd << 7 | funct3 << 12 | rs1 << 15 | rs2 << 20 | funct7 << 25


def s_type(funct3, rs1, rs2, immediate):
    return 0x23 | (immediate & 0x1F) << 7 | funct3 << 12 | rs1 << 15 | rs2 << 20 | (immediate >> 5 & 0x7F) << 25


def b_type(funct3, rs1, rs2, distance):
    return (
        0x63
        | (distance >> 11 & 1) << 7
        | (distance >> 1 & 0xF) << 8
        | funct3 << 12
        | rs1 << 15
        | rs2 << 20
        | (distance >> 5 & 0x3F) << 25
        | (distance >> 12 & 1) << 31
    )


def addi(rd, rs1, immediate):
    return i_type(0x13, rd, 0, rs1, immediate)


def lui(rd, upper):
    return 0x37 | rd << 7 | upper << 12


ECALL = 0x73

# ---- programs. x8 is the address of the data, x9 the open file; the others hold anything

SCRATCH = [5, 6, 7, 14, 15, 28, 29, 30, 31]


def seek(source):
    """Eight seeks in ten go to a multiple of a block, or near one."""
    block = source.choice([0, 1, 2, 3, 5, 8])
    return [
        addi(10, 9, 0),
        lui(11, block),
        addi(11, 11, source.choice([0, 0, 0, 64, -64, 100])),
        addi(12, 0, source.choice([0, 0, 0, 0, 1, 2, 3])),
        addi(17, 0, 62),
        ECALL,
    ]


def read(source):
    return [
        addi(10, 9, 0),
        addi(11, 8, source.choice([0x100, 0x200, 0x300, 0x7C0])),
        addi(12, 0, source.choice([0, 1, 7, 64, 256, 1000, 2047])),
        addi(17, 0, 63),
        ECALL,
    ]


def write(source):
    to = source.choice([1, 1, 2, 9])
    return [addi(10, 0 if to != 9 else 9, to if to != 9 else 0), addi(11, 8, source.choice([8, 0x100, 0x208])), addi(12, 0, source.choice([0, 5, 16, 64])), addi(17, 0, 64), ECALL]


def other_call(source):
    number = source.choice([57, 214, 1024, 56, 99, 93])
    return [addi(10, source.choice([0, 8, 9]), source.choice([0, 1])), addi(11, 8, 0), addi(12, 0, 0), addi(17, 0, number), ECALL]


def compute(source):
    rd, rs1, rs2 = (source.choice(SCRATCH) for _ in range(3))
    kind = source.randrange(4)
    if kind == 0:
        return [addi(rd, rs1, source.randrange(-2048, 2048))]
    if kind == 1:
        return [r_type(0x33, rd, source.randrange(8), rs1, rs2, 0)]
    if kind == 2:
        return [r_type(source.choice([0x33, 0x3B]), rd, source.choice([0, 4, 5, 6, 7]), rs1, rs2, 1)]
    return [lui(rd, source.randrange(1 << 20))]


def access(source):
    register = source.choice(SCRATCH)
    width = source.randrange(4)
    offset = source.randrange(-16, 120) * 8
    if source.randrange(20) == 0:
        offset += source.randrange(8)
    if source.randrange(2):
        return [i_type(0x03, register, width + source.choice([0, 4]) if width < 3 else 3, 8, offset)]
    return [s_type(width, 8, register, offset)]


def branch(source):
    """Back or on by some words; a register that counts down keeps most loops short."""
    distance = source.choice([-40, -24, -12, 8, 8, 12, 16, 24])
    register = source.choice(SCRATCH)
    return [addi(register, register, -1), b_type(source.choice([0, 1, 4, 5, 6, 7]), register, source.choice([0] + SCRATCH), distance)]


def words_of(source):
    words = [lui(8, DATA_START >> 12), addi(11, 8, 0), addi(12, 0, 0), addi(17, 0, 56), ECALL, addi(9, 10, 0)]
    words += [addi(register, 0, source.randrange(1, 12)) for register in SCRATCH]
    kinds = [seek, seek, read, read, read, write, compute, compute, access, access, access, branch, other_call]
    end = len(words) + 30
    while len(words) < end:
        words += source.choice(kinds)(source)
    if source.randrange(30) == 0:
        words[source.randrange(6, len(words))] = source.choice([0, 0x0000000B, 0x00100073, 0xFFFFFFFF])
    return words + [addi(10, 0, source.randrange(100)), addi(17, 0, 93), ECALL]


def image_of(words):
    """An executable of two segments (ELF gABI chapters 4 and 5)."""
    text = b"".join(struct.pack("<I", word) for word in words)
    data_offset = 0xB0 + len(text)
    header = b"\x7fELF\2\1\1" + bytes(9) + struct.pack("<HHIQQQIHHHHHH", 2, 243, 1, TEXT_START, 64, 0, 0, 64, 56, 2, 0, 0, 0)
    code = struct.pack("<IIQQQQQQ", 1, 5, 0xB0, TEXT_START, TEXT_START, len(text), len(text), 4096)
    data = struct.pack("<IIQQQQQQ", 1, 6, data_offset, DATA_START, DATA_START, len(STRINGS), DATA_BYTES, 4096)
    return header + code + data + text + STRINGS


def pattern_of(source):
    """Each pattern has a move of the program and a finish of a fetch."""
    items = ["O" + str(source.choice([1, 1, 2, 7, 30])), "D" + str(source.choice([1, 1, 1, 2]))]
    for letter in "ST":
        for _ in range(source.randrange(3)):
            items.append(letter + str(source.choice([1, 3, 20, 100, 600, 5000])))
    source.shuffle(items)
    return "".join(items)


# ---- runs


def outcome(program, folder, words):
    ran = subprocess.run([program, *words], cwd=folder, stdin=subprocess.DEVNULL, capture_output=True, timeout=60)
    return ran.returncode, ran.stdout, ran.stderr


def is_front(one, other):
    return one.startswith(other) or other.startswith(one)


def fault(plain, run):
    """What is wrong with the two outcomes, if anything is."""
    if plain[0] != 124:
        return None if plain == run else f"{run} in place of {plain}"
    if run[0] not in (0, 124, 126) and run[0] > 100:
        return f"status {run[0]} beside a program whose turns are over"
    return None if is_front(plain[1], run[1]) else "other bytes than the program's"


def compare(program, folder, number, seed):
    source = random.Random(seed * 1_000_003 + number)
    name = f"image{number}"
    path = os.path.join(folder, name)
    with open(path, "wb") as file:
        file.write(image_of(words_of(source)))
    pattern = pattern_of(source)
    plain = outcome(program, folder, ["plain", "--turns", "3000", name])
    options = ["--pattern", pattern, "--turns", "20000000"]
    more = ["--regions", str(source.choice([1, 2, 16, 4096]))]
    bad = fault(plain, outcome(program, folder, ["run", *options, *more, name]))
    if not bad and number % 10 == 0:
        file_name = name + ".rewritten"
        with open(os.path.join(folder, file_name), "wb") as file:
            file.write(outcome(program, folder, ["rewrite", *more, name])[1])
        told = outcome(program, folder, ["run", *options, file_name])
        bad = fault(plain, told)
        os.remove(os.path.join(folder, file_name))
    if bad:
        kept = os.path.join(tempfile.gettempdir(), name)
        os.replace(path, kept)
        return plain[0], f"runs: {kept} with --pattern {pattern}: {bad}"
    os.remove(path)
    return plain[0], None


def main():
    program = os.path.abspath(sys.argv[1])
    count = int(sys.argv[2]) if len(sys.argv) > 2 else 1000
    seed = int(sys.argv[3]) if len(sys.argv) > 3 else 1
    statuses, wrong = {}, 0
    with tempfile.TemporaryDirectory() as folder, ThreadPoolExecutor(os.cpu_count()) as pool:
        with open(os.path.join(folder, "data"), "wb") as file:
            file.write(bytes((31 * (i // 4096) + i) % 256 for i in range(5 * 4096 + 1000)))
        for status, bad in pool.map(lambda number: compare(program, folder, number, seed), range(count)):
            statuses[status] = statuses.get(status, 0) + 1
            if bad:
                wrong += 1
                print(bad)
    ends = {"exits": 0, "turns over": 0, "traps": 0}
    for status, times in statuses.items():
        ends["turns over" if status == 124 else "traps" if status == 126 else "exits"] += times
    told = ", ".join(f"{times} {end}" for end, times in ends.items())
    print(f"compare_runs: {count} programs, {wrong} differ; {told}")
    sys.exit(1 if wrong else 0)


if __name__ == "__main__":
    main()
