"""Tells what a shadow is worth for each sample; run by benefit.sh. Use: benefit.py SPECHINT SAMPLES"""
import os
import re
import shutil
import subprocess
import sys
import tempfile

SPECHINT, SAMPLES = sys.argv[1], sys.argv[2]
# A wait takes as long as so many words: a hundredth of a second, where a hundred million words take a second.
WORDS = 1_000_000
WITHOUT, WITH = f"O{WORDS}D4", f"O{WORDS}T{WORDS}D4"
SIZES = [8, 64, 256]

# ---- what the samples read


def write(path, lines):
    with open(path, "w", encoding="ascii") as file:
        file.writelines(f"{line}\n" for line in lines)


def fill(folder):
    """Files of text, a cube of bytes, and object files as a linker reads them."""
    for part in range(8):
        write(os.path.join(folder, f"part{part}"), range(part * 20000, part * 20000 + 20000))
    with open(os.path.join(folder, "cube"), "wb") as file:
        file.write(bytes(i * 7 % 251 for i in range(160 * 160 * 160)))
    objects = []
    if shutil.which("cc"):
        for name in ("search", "count", "sums", "slice"):
            made = subprocess.run(["cc", "-O2", "-c", "-o", os.path.join(folder, name + ".o"), os.path.join(SAMPLES, name + ".c")])
            objects += [name + ".o"] if made.returncode == 0 else []
    parts = [f"part{part}" for part in range(8)]
    runs = [
        ("slice", ["slice", "cube", "160", "160", "160", "x", "80"]),
        ("search", ["search", "159999", *parts]),
        ("count", ["count", *parts]),
        ("sums", ["sums", *parts]),
        ("copy", ["copy", sum_of(os.path.join(folder, "part7")), "part7"]),
    ]
    return runs + ([("sections", ["sections", *objects])] if objects else [])


def sum_of(path):
    """The sum that the copier checks: that of POSIX's cksum."""
    return subprocess.run(["cksum", path], capture_output=True, text=True, check=True).stdout.split()[0]


# ---- runs


def told(folder, words):
    return subprocess.run([SPECHINT, *words], cwd=folder, capture_output=True)


def counts(folder, pattern, words):
    """The numbers of the report."""
    line = told(folder, ["run", "--report", "--pattern", pattern, *words]).stderr.decode().splitlines()[-1]
    return {name: int(number) for name, number in re.findall(r"([a-z]+) ([0-9]+)", line)}


def fetches(folder, words):
    """How often a cache fetches, by a replay or a plan."""
    return int(re.search(r"fetches ([0-9]+)", told(folder, words).stdout.decode())[1])


def row(folder, name, words):
    plain = [os.path.join(SAMPLES, "out", words[0]), *words[1:]]
    alone, helped = counts(folder, WITHOUT, plain), counts(folder, WITH, plain)
    trace = os.path.join(folder, "trace")
    with open(trace, "wb") as file:
        file.write(told(folder, ["trace", "--pattern", WITH, *plain]).stdout)
    replays = [fetches(folder, ["replay", "--blocks", str(size), "trace"]) for size in SIZES]
    gone = 100 * (alone["stalls"] - helped["stalls"]) / alone["stalls"] if alone["stalls"] else 0
    cells = [name, alone["stalls"], helped["stalls"], f"{gone:.0f}%", helped["hints"], helped["restarts"], *replays, fetches(folder, ["plan", "trace"])]
    return "| " + " | ".join(str(cell) for cell in cells) + " |"


def main():
    print("| Sample | Waits without a shadow | with one | Gone | Hints | Restarts | Fetches with 8 blocks | 64 | 256 | Least, 256 |")
    print("|---|---|---|---|---|---|---|---|---|---|")
    with tempfile.TemporaryDirectory() as folder:
        for name, words in fill(folder):
            print(row(folder, name, words), flush=True)


if __name__ == "__main__":
    main()
