#!/usr/bin/env python3
"""Compares `spechint replay` and `spechint plan` with plain computations of their own definitions.

A replay runs a cache again: `cached` has at most B blocks, the most recently used first, and `queue`
at most Q, the oldest first. As the program comes to I instructions, the oldest queued fetches finish,
one for each of the I/M - t ticks that passed, and t becomes I/M. A plan may hold any B blocks at each
need that have the needed one, and costs one fetch for each block that it didn't hold before.

Use: plans.py SPECHINT. It ends with 1 where an answer isn't as wanted.
"""

import heapq
import itertools
import os
import random
import subprocess
import sys
import tempfile
from collections import OrderedDict
from concurrent.futures import ThreadPoolExecutor

MOST_NEEDS = 4_000_000


# ---- traces: a line is (own, shadow, keyword, name, offset, count)


def text_of(line):
    own, shadow, keyword, name, offset, count = line
    return f"{own} {shadow} {keyword} {name.encode().hex()} {offset} {count}\n"


def blocks_of(line):
    _, _, _, name, offset, count = line
    return [(name, block) for block in range(offset // 4096, -(-(offset + count) // 4096))] if count else []


def needs_of(lines):
    return [block for line in lines if line[2] in ("match", "restart") for block in blocks_of(line)]


# ---- the definitions


def replayed(lines, blocks, depth, every):
    """Reads, needs, stalls and fetches of a cache run again."""
    cached, queue = OrderedDict(), OrderedDict()
    clock = reads = needs = stalls = fetches = 0

    def land(block):
        nonlocal fetches
        fetches += 1
        if len(cached) >= blocks:
            cached.popitem(last=False)
        cached[block] = None

    for line in lines:
        goal = line[0] // every
        while clock < goal and queue:
            land(queue.popitem(last=False)[0])
            clock += 1
        clock = max(clock, goal)
        if line[2] == "hint":
            for block in blocks_of(line):
                if block not in cached and block not in queue and len(queue) < depth:
                    queue[block] = None
        if line[2] in ("match", "restart"):
            reads += 1
            for block in blocks_of(line):
                needs += 1
                if block in cached:
                    cached.move_to_end(block)
                else:
                    stalls += 1
                    queue.pop(block, None)
                    land(block)
    return reads, needs, stalls, fetches


def least_of_all_plans(needs, blocks):
    """The least cost of all plans, by every list of at most so many of the blocks at each need."""
    every = sorted(set(needs))
    lists = [frozenset(it) for size in range(1, blocks + 1) for it in itertools.combinations(every, size)]
    costs = {frozenset(): 0}
    for need in needs:
        costs = {now: min(cost + len(now - before) for before, cost in costs.items()) for now in lists if need in now}
    return min(costs.values())


def farthest(needs, blocks):
    """The fetches of the plan that lets the block go whose next need is farthest."""
    following, last = [0] * len(needs), {}
    for place in range(len(needs) - 1, -1, -1):
        following[place] = last.get(needs[place], len(needs) + place)
        last[needs[place]] = place
    held, heap, fetches = {}, [], 0
    for place, block in enumerate(needs):
        if block not in held:
            fetches += 1
            if len(held) >= blocks:
                while True:
                    next_need, leaves = heapq.heappop(heap)
                    if held.get(leaves) == -next_need:
                        break
                del held[leaves]
        held[block] = following[place]
        heapq.heappush(heap, (-following[place], block))
    return fetches


# ---- random traces


def random_lines(rng, count, names, blocks, most):
    """Lines of reads and hints, with own counts that rise."""
    own, lines = 0, []
    for _ in range(count):
        own += rng.choice((0, 0, 1, 3, 40))
        keyword = rng.choice(("match", "restart", "hint", "hint", "fill"))
        offset = 4096 * rng.randrange(blocks) + rng.choice((0, 0, 1, 4095))
        lines.append((own, own // 2, keyword, rng.choice(names), offset, rng.choice((0, 1, 4096, rng.randrange(most + 1)))))
    return lines


def short_lines(rng):
    """Eight needs of at most five blocks."""
    return [(i, 0, "match", "a", 4096 * rng.randrange(rng.choice((2, 3, 5))), 1) for i in range(8)]


def demo_lines():
    """A program that reads 40 records of a block each: its first read restarts the shadow, which gives the
    other 39 as hints, and each comes 14 instructions after the one before."""
    first = [(16, 0, "restart", "data", 0, 4096)]
    hints = [(17, 14 * i, "hint", "data", 4096 * i, 4096) for i in range(1, 40)]
    return first + hints + [(16 + 14 * i, 558, "match", "data", 4096 * i, 4096) for i in range(1, 40)]


# ---- bad lines

GOOD = "1 0 call 56 0 2097152 0 3\n1 0 hint 61 0 4096\n2 0 match 61 0 4096\n3 0 exit 0\n"

BAD = [
    "", " ", "1", "1 0", "1 0 ", "1 0 turn", "1 0 turns ", " 1 0 turns", "1  0 turns", "1 0 turns 0", "1\t0 turns", "1 0 turns\r",
    "01 0 turns", "1 00 turns", "-1 0 turns", "+1 0 turns", "1 x turns", "18446744073709551616 0 turns", "0 18446744073709551616 turns",
    "1 0 Turns", "1 0 read 61 0 1", "1 0 match", "1 0 match 61", "1 0 match 61 0", "1 0 match 61 0 1 1", "1 0 match  0 1",
    "1 0 match 6 0 1", "1 0 match 6A 0 1", "1 0 match 6g 0 1", "1 0 match " + "61" * 256 + " 0 1", "1 0 match 61 00 1",
    "1 0 match 61 72057594037927936 1", "1 0 match 61 0 65537", "1 0 match 61 0 -1", "1 0 restart 61 0 65537", "1 0 fill 61 0 65537",
    "1 0 hint 61 72057594037927936 1", "1 0 stall 61", "1 0 stall 61 17592186044416", "1 0 fetch 61 17592186044416",
    "1 0 drop 61 17592186044416", "1 0 lost 61 17592186044416", "1 0 text 0 61", "1 0 text 3 61", "1 0 text 1 ", "1 0 text 1 6",
    "1 0 text 1 6A", "1 0 text 01 61", "1 0 call 63 3 0 0", "1 0 call 63 3 0 0 -0", "1 0 call 63 3 0 0 9223372036854775808",
    "1 0 call 63 3 0 0 -9223372036854775809", "1 0 call 63 3 0 0 0 0", "1 0 call -1 3 0 0 0", "1 0 exit 256", "1 0 exit -1", "1 0 exit",
    "1 0 trap Illegal", "1 0 trap illegal 0x0", "1 0 trap Illegal 0", "1 0 trap Illegal 0x", "1 0 trap Illegal 0x00",
    "1 0 trap Illegal 0xA", "1 0 trap Illegal 0x10000000000000000", "1 0 park exit", "1 0 park", "1 0 park Exit 1", "1 0 fault", "1 0 fault read",
    "1 0 use", "1 0 use -1", "1 0 use 01", "\0",
]


# ---- the comparison


class Comparison:
    """Runs the program on traces in a folder of its own, and keeps what isn't as wanted."""

    def __init__(self, program, folder):
        self.program, self.folder = program, folder
        self.tried, self.wrong, self.numbers = 0, [], itertools.count()

    def trace(self, text):
        path = os.path.join(self.folder, f"t{next(self.numbers)}")
        with open(path, "wb") as file:
            file.write(text if isinstance(text, bytes) else text.encode())
        return os.path.basename(path)

    def wants(self, words, name, code, out, err):
        ran = subprocess.run([self.program, *words, name], cwd=self.folder, capture_output=True)
        got = ran.returncode, ran.stdout.decode(), ran.stderr.decode()
        wanted = code, out, err and f"spechint: {name}: {err}\n"
        self.tried += 1
        if got != wanted:
            with open(os.path.join(self.folder, name), "rb") as file:
                self.wrong.append(f"{' '.join(words)}: {got}, not {wanted}, on\n{file.read(400).decode('latin-1')}")

    def wants_replay(self, name, lines, blocks, depth, every):
        words = ["replay", "--blocks", str(blocks), "--depth", str(depth), "--every", str(every)]
        told = "replay reads {} needs {} stalls {} fetches {}\n".format(*replayed(lines, blocks, depth, every))
        self.wants(words, name, 0, told, "")

    def wants_plan(self, name, needs, blocks, least):
        self.wants(["plan", "--blocks", str(blocks)], name, 0, f"plan needs {needs} fetches {least} blocks {blocks}\n", "")

    def short(self, seed):
        """A trace of eight needs, by all plans, and all replays of few blocks."""
        rng = random.Random(seed)
        lines = short_lines(rng)
        name = self.trace("".join(map(text_of, lines)))
        for blocks in (1, 2, 3):
            self.wants_plan(name, 8, blocks, least_of_all_plans(needs_of(lines), blocks))
        os.remove(os.path.join(self.folder, name))

    def middle(self, seed):
        """A trace of some hundred lines, by the definition of a replay and by the farthest next need."""
        rng = random.Random(seed)
        lines = random_lines(rng, rng.randrange(1, 400), ["a", "b", "data" * rng.choice((1, 63))], rng.choice((4, 30, 300)), 65536)
        name = self.trace("".join(map(text_of, lines)))
        needs = needs_of(lines)
        for blocks in (1, rng.randrange(1, 40), 65536):
            self.wants_replay(name, lines, blocks, rng.choice((1, 2, 64, 65536)), rng.choice((1, 7, 1000, 10**15)))
            self.wants_plan(name, len(needs), blocks, farthest(needs, blocks))
        os.remove(os.path.join(self.folder, name))

    def long(self, seed):
        """A trace of 100,000 needs."""
        rng = random.Random(seed)
        lines = [(i, 0, "match", "ab"[rng.randrange(2)], 4096 * int(rng.expovariate(0.001)), 1) for i in range(100_000)]
        name = self.trace("".join(map(text_of, lines)))
        needs = needs_of(lines)
        for blocks in (1, 2, 3, 256, 2000, 65536):
            self.wants_plan(name, len(needs), blocks, farthest(needs, blocks))
            self.wants_replay(name, lines, blocks, 64, 1)

    def bad_line(self, line):
        """A bad line is told by its number, at the front, at the end, and behind a bad one or none."""
        after = GOOD.count("\n") + 1
        for text, number in ((line + "\n" + GOOD, 1), (GOOD + line + "\n", after), (GOOD + line + "\n" + line + "\n", after)):
            name = self.trace(text)
            self.wants(["replay"], name, 118, "", f"bad line {number}")
            self.wants(["plan"], name, 118, "", f"bad line {number}")

    def rows(self):
        """Traces whose answers are known, and the ends of the ranges."""
        three = "1 0 restart 61 4096 1\n2 0 restart 61 8192 1\n3 0 restart 61 12288 1\n4 0 restart 61 4096 1\n5 0 restart 61 8192 1\n"
        name = self.trace(three)
        for blocks, least in ((1, 5), (2, 4), (3, 3), (65536, 3)):
            self.wants_plan(name, 5, blocks, least)
        self.wants(["replay", "--blocks", "2"], name, 0, "replay reads 5 needs 5 stalls 5 fetches 5\n", "")

        name = self.trace("".join(map(text_of, demo_lines())))
        self.wants(["replay"], name, 0, "replay reads 40 needs 40 stalls 1 fetches 40\n", "")
        self.wants(["replay", "--every", "1000000"], name, 0, "replay reads 40 needs 40 stalls 40 fetches 40\n", "")
        self.wants(["plan"], name, 0, "plan needs 40 fetches 40 blocks 256\n", "")

        name = self.trace("")
        self.wants(["replay"], name, 0, "replay reads 0 needs 0 stalls 0 fetches 0\n", "")
        self.wants(["plan"], name, 0, "plan needs 0 fetches 0 blocks 256\n", "")

        most = 2**64 - 1
        name = self.trace(f"{most} {most} hint 61 0 65536\n{most} {most} match 61 0 65536\n{most} {most} turns\n")
        self.wants(["replay"], name, 0, "replay reads 1 needs 16 stalls 16 fetches 16\n", "")
        self.wants(["replay", "--every", str(10**15)], name, 0, "replay reads 1 needs 16 stalls 16 fetches 16\n", "")

        for text, number in ((GOOD[:-1], 4), ("x", 1), ("\n", 1), (GOOD + "\n", 5), (GOOD + "1 0 turns", 5)):
            name = self.trace(text)
            self.wants(["replay"], name, 118, "", f"bad line {number}")
            self.wants(["plan"], name, 118, "", f"bad line {number}")

    def too_many(self):
        """4,000,000 needs are planned, one more is too many, and a bad line comes first."""
        reads = "".join(f"{i} 0 match 61 {65536 * i} 65536\n" for i in range(MOST_NEEDS // 16))
        name = self.trace(reads)
        self.wants_plan(name, MOST_NEEDS, 65536, MOST_NEEDS)
        name = self.trace(reads + "1 0 match 62 0 1\n")
        self.wants(["plan", "--blocks", "65536"], name, 117, "", "too many needs")
        self.wants(["replay"], name, 0, "replay reads 250001 needs 4000001 stalls 4000001 fetches 4000001\n", "")
        name = self.trace(reads + "1 0 match 62 0 1\nx\n")
        self.wants(["plan"], name, 118, "", f"bad line {MOST_NEEDS // 16 + 2}")


def main():
    program = os.path.abspath(sys.argv[1])
    with tempfile.TemporaryDirectory() as folder, ThreadPoolExecutor(os.cpu_count()) as pool:
        comparison = Comparison(program, folder)
        comparison.rows()
        comparison.too_many()
        for work, inputs in ((comparison.short, range(300)), (comparison.middle, range(150)), (comparison.bad_line, BAD), (comparison.long, range(2))):
            list(pool.map(work, inputs))
    for text in comparison.wrong[:10]:
        print(f"compare_plans: {text}")
    print(f"compare_plans: {comparison.tried} runs, {len(comparison.wrong)} differ" if comparison.wrong else f"compare_plans: {comparison.tried} runs, all agree")
    sys.exit(1 if comparison.wrong else 0)


if __name__ == "__main__":
    main()
