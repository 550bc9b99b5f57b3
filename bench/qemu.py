"""Compares `spechint plain` with `qemu-riscv64 -singlestep`; run by qemu.sh, which builds the programs.

Use: qemu.py SPECHINT FOLDER BASELINE RUNS
"""
import os
import re
import shutil
import subprocess
import sys

SPECHINT, FOLDER, BASELINE, RUNS = sys.argv[1], sys.argv[2], sys.argv[3], int(sys.argv[4])

# Each program with its arguments, and those of a short run.
PROGRAMS = [
    ("search", ["98765", "numbers"], ["765", "few"]),
    ("count", ["numbers"], ["few"]),
    ("sums", ["numbers"], ["few"]),
    ("primes", ["128"], ["1"]),
    ("sorts", ["60"], ["1"]),
]


def run(command):
    """Returns what the command wrote, and the processor's time that it took, in seconds."""
    before = os.times()
    ran = subprocess.run(command, cwd=FOLDER, stdout=subprocess.PIPE, check=True)
    after = os.times()
    return ran.stdout, after.children_user + after.children_system - before.children_user - before.children_system


def best(command):
    wrote, seconds = run(command)
    for _ in range(RUNS - 1):
        seconds = min(seconds, run(command)[1])
    return wrote, seconds


def instructions(words):
    """Returns how many instructions a program completes: one fewer turn than these ends before it."""
    low, high = 0, 1 << 40
    while low + 1 < high:
        middle = (low + high) // 2 if high < 1 << 40 else max(2 * low, 1 << 20)
        ran = subprocess.run([SPECHINT, "plain", "--turns", str(middle), *words], cwd=FOLDER, capture_output=True)
        low, high = (middle, high) if ran.returncode == 124 else (low, middle)
    return high


def host_instructions(options, words):
    """Returns how many instructions of this machine a run takes."""
    command = ["valgrind", "--tool=callgrind", "--callgrind-out-file=/dev/null", SPECHINT, "plain", *options, *words]
    said = subprocess.run(command, cwd=FOLDER, capture_output=True, text=True).stderr
    return int(re.search(r"Collected : ([0-9]+)", said)[1])


def stored():
    """Returns the stored numbers by program."""
    if not os.path.exists(BASELINE):
        return {}
    with open(BASELINE) as lines:
        return {line.split()[0]: float(line.split()[1]) for line in lines if line[0] not in "#\n"}


least = None
for name, words, _ in PROGRAMS:
    plain, took = best([SPECHINT, "plain", name, *words])
    emulated, other = best(["qemu-riscv64", "-singlestep", name, *words])
    if plain != emulated:
        sys.exit(f"qemu.py: {name}: the outputs differ")
    least = min(other / took, least or other / took)
    print(f"{name}: plain {took:.2f} s; qemu -singlestep {other:.2f} s; {other / took:.2f} times as quick", flush=True)
print(f"the least: {least:.2f} times as quick")

if not shutil.which("valgrind"):
    sys.exit("qemu.py: no valgrind, so instructions of this machine aren't counted")
before = stored()
for name, _, words in PROGRAMS:
    count = instructions([name, *words])
    each = (host_instructions([], [name, *words]) - host_instructions(["--turns", "1"], [name, *words])) / (count - 1)
    was = f"; stored {before[name]:.1f}" if name in before else ""
    print(f"{name}: {each:.1f} instructions of this machine for each of {count:,}{was}", flush=True)
