"""Compares `spechint run` with `spechint plain`; run by run.sh, which builds the samples.

Use: run.py SPECHINT SAMPLES FOLDER RUNS
"""
import os
import subprocess
import sys

SPECHINT, SAMPLES, FOLDER, RUNS = sys.argv[1], sys.argv[2], sys.argv[3], int(sys.argv[4])
PROGRAMS = [("search", ["98765", "numbers"]), ("count", ["numbers"]), ("sums", ["numbers"])]
PATTERNS = ["O1S600D1", "O600T600D4", "O100S100D1"]


def run(words):
    """Returns what was put and how the command ended, and the processor's time that it took, in seconds."""
    before = os.times()
    ran = subprocess.run([SPECHINT, *words], cwd=FOLDER, capture_output=True)
    after = os.times()
    return (ran.returncode, ran.stdout, ran.stderr), after.children_user + after.children_system - before.children_user - before.children_system


def best(words):
    told, seconds = run(words)
    for _ in range(RUNS - 1):
        seconds = min(seconds, run(words)[1])
    return told, seconds


for name, arguments in PROGRAMS:
    words = [os.path.join(SAMPLES, name), *arguments]
    plain, alone = best(["plain", *words])
    for pattern in PATTERNS:
        ran, took = best(["run", "--pattern", pattern, "--turns", "1000000000000000", *words])
        if ran != plain:
            sys.exit(f"run.py: {name}: run does otherwise than plain")
        print(f"{name}: plain {alone:.2f} s; run with {pattern} {took:.2f} s; {took / alone:.2f} times as long", flush=True)
