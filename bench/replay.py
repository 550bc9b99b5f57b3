"""Times `spechint replay` and `spechint plan` beside `sort`; run by replay.sh, which builds the program.

Use: replay.py SPECHINT RATIOS RUNS
"""
import os
import random
import subprocess
import sys
import tempfile

SPECHINT, RATIOS, RUNS = sys.argv[1], sys.argv[2], int(sys.argv[3])

NAME = b"data.bin".hex()
SIZE = 1 << 26
BLOCKS = "65536"


def run_lines(rng):
    """The lines of a run whose hints come before its reads, from a few files in order."""
    own, offset = 0, 0
    while True:
        own += rng.randrange(200)
        offset = 4096 * rng.randrange(2000) if rng.random() < 0.1 else offset + 4096
        yield f"{own} {own // 2} call 63 3 2101248 4096 4096\n"
        yield f"{own} {own // 2} hint {NAME} {offset} 4096\n"
        yield f"{own} {own // 2} match {NAME} {offset} 4096\n"
        yield f"{own} {own // 2} fetch {NAME} {offset // 4096}\n"


def far_lines(rng):
    """Hints and reads of any of 200,000 blocks."""
    own = 0
    while True:
        own += rng.randrange(50)
        yield f"{own} {own // 2} hint {NAME} {4096 * rng.randrange(200_000)} 4096\n"
        yield f"{own} {own // 2} match {NAME} {4096 * rng.randrange(200_000)} 4096\n"


def long_reads(rng):
    """Reads of 16 blocks, with 4,000,000 needs of 200,016 blocks."""
    for number in range(250_000):
        yield f"{50 * number} {25 * number} match {NAME} {4096 * rng.randrange(200_000)} 65536\n"


def needs_of_reads(rng):
    """The same needs, one in each line."""
    for _ in range(250_000):
        first = rng.randrange(200_000)
        for block in range(first, first + 16):
            yield f"{block}\n"


def write_trace(path, lines):
    """Writes lines as long as they fit into 64 MiB, and returns their count."""
    size = count = 0
    with open(path, "w") as file:
        for line in lines:
            size += len(line)
            if size > SIZE:
                break
            file.write(line)
            count += 1
    return count


def processor_time(command):
    """The least processor time of the runs of a command, in seconds."""
    least = None
    for _ in range(RUNS):
        before = os.times()
        subprocess.run(command, stdout=subprocess.DEVNULL, check=True, env={**os.environ, "LC_ALL": "C"})
        after = os.times()
        used = after.children_user + after.children_system - before.children_user - before.children_system
        least = min(used, least or used)
    return least


def stored():
    """The stored ratios by name."""
    if not os.path.exists(RATIOS):
        return {}
    with open(RATIOS) as lines:
        return {line.rsplit(" ", 1)[0]: line.rsplit(" ", 1)[1].strip() for line in lines if line[0] not in "#\n"}


before = stored()
with tempfile.TemporaryDirectory() as folder:
    for name, lines, things, sorted_lines in (
        ("run", run_lines, "lines", run_lines),
        ("far", far_lines, "lines", far_lines),
        ("long", long_reads, "needs", needs_of_reads),
    ):
        path, other = os.path.join(folder, name), os.path.join(folder, "other")
        write_trace(path, lines(random.Random(1)))
        count = write_trace(other, sorted_lines(random.Random(1)))
        sort = processor_time(["sort", "--parallel=1", other])
        for command in ("replay", "plan"):
            took = processor_time([SPECHINT, command, "--blocks", BLOCKS, path])
            was = f"; stored {before[f'{command} {name}']}" if f"{command} {name}" in before else ""
            print(
                f"{command} {name}: {took:.2f} s for {count:,} {things}, {count / took:,.0f} a second;"
                f" sort {sort:.2f} s, ratio {took / sort:.2f}{was}",
                flush=True,
            )
