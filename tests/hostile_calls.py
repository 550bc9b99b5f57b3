#!/usr/bin/env python3
"""Refuses calls of spechint and compares what it comes to with a run where nothing is refused; see hostile_calls.sh.

A run whose call was refused may end as without, or by the status that tells of the refusal (out of memory, a read
fault, a failed put), with a front of the bytes. Where a block is lost or a hint's fetch fails, `trace` has the same
calls, texts and end, and the reports of `run` and `demo` no fewer waits. Where the address space is narrow the stack
can't grow either, which the system tells by a signal alone: such runs are counted apart, as without stack.

Use: hostile_calls.py SPECHINT FOLDER MOST, where FOLDER has refuse.so.
"""

import os
import re
import resource
import sys

import runs
from outcomes import Outcome, fault, outcome, own_text

TOLD = {"memory": 125, "space": 125, "reads": 122, "writes": 123}


def reader(records):
    """A program that opens `data`, reads 64 bytes of so many blocks, puts `done` on standard output and a letter of it
    on standard error, and exits with 3."""
    loop = [runs.addi(10, 9, 0), runs.addi(11, 18, 0), runs.addi(12, 0, 0), runs.addi(17, 0, 62), runs.ECALL]
    loop += [runs.addi(10, 9, 0), runs.lui(11, 0x201), runs.addi(12, 0, 64), runs.addi(17, 0, 63), runs.ECALL]
    loop += [runs.s_type(2, 8, 19, 256), runs.r_type(0x33, 18, 0, 18, 20, 0), runs.addi(19, 19, -1)]
    words = [runs.lui(8, 0x200), runs.addi(11, 8, 0), runs.addi(12, 0, 0), runs.addi(17, 0, 56), runs.ECALL]
    words += [runs.addi(9, 10, 0), runs.addi(18, 0, 0), runs.addi(19, 0, records), runs.lui(20, 1)]
    words += loop + [runs.b_type(1, 19, 0, -4 * len(loop))]
    words += [runs.addi(10, 0, 1), runs.addi(11, 8, 8), runs.addi(12, 0, 5), runs.addi(17, 0, 64), runs.ECALL]
    words += [runs.addi(10, 0, 2), runs.addi(12, 0, 1), runs.ECALL]
    return words + [runs.addi(10, 0, 3), runs.addi(17, 0, 93), runs.ECALL]


JOBS = [
    ["plain", "reads"],
    ["rewrite", "reads"],
    ["run", "--report", "reads"],
    ["run", "--report", "rewritten"],
    ["trace", "reads"],
    ["replay", "told"],
    ["plan", "told"],
    ["demo", "0"],
]


def own_lines(out):
    """Of a trace the lines of the program's own calls, texts and end, without the shadow's count."""
    kept = []
    for line in out.splitlines():
        words = line.split(b" ")
        if words[2] in (b"call", b"text", b"exit", b"trap"):
            kept.append(words[:1] + words[2:])
    return kept


def waits(told):
    return [int(number) for number in re.findall(rb" stalls (\d+)", told.out + told.err)]


def ends_alike(job, usual, told):
    """Whether a run with another status line than usual ends so all the same, but for waits and lost hints."""
    if told.status != usual.status:
        return False
    if job[0] == "trace":
        # Some block or hint was lost, and that is told.
        lost = b" lost " in told.out or b" drop " in told.out
        return lost and told.err == usual.err and own_lines(told.out) == own_lines(usual.out)
    if job[0] == "run":
        front = usual.err.rpartition(b"spechint: ")[0]
        return told.out == usual.out and told.err.startswith(front) and waits(told) >= waits(usual) != []
    return job[0] == "demo" and told.err == b"" and waits(told) >= waits(usual) != []


def tells(job, kind, usual, told):
    """Whether a run tells what it was refused, and has put nothing else than a front of the usual bytes."""
    if told.status != TOLD[kind]:
        return False
    own = own_text(told, job[-1])
    if own is None or not usual.err.startswith(own):
        return False
    if job[0] == "trace" and not usual.out.startswith(told.out):
        calls = own_lines(told.out)
        return own_lines(usual.out)[: len(calls)] == calls
    return usual.out.startswith(told.out) and (kind != "writes" or told.out + own != usual.out + usual.err)


class Refusals:
    """The runs made so far, by how they ended, and what was wrong."""

    def __init__(self, program, folder, most):
        self.program, self.folder, self.most = program, folder, most
        self.ends, self.wrong, self.counts = {}, {}, []

    def usual(self, job):
        told = self.refused(job, "memory", 0, 0)
        bad = fault(job[0], job[-1], told)
        if bad or told.status not in (0, 3):
            sys.exit(f"hostile_calls: {' '.join(job)}, with nothing refused: {bad or told}")
        return told

    def refused(self, job, kind, first, last, how="fail"):
        counted = os.path.join(self.folder, "counted")
        with open(counted, "w") as file:
            file.write("0")
        environment = {
            "LD_PRELOAD": os.path.join(self.folder, "refuse.so"),
            "REFUSE_KIND": kind,
            "REFUSE_FROM": str(first),
            "REFUSE_TO": str(last),
            "REFUSE_HOW": how,
            "REFUSE_COUNT": counted,
        }
        told = outcome([self.program, *job], cwd=self.folder, env=environment)
        with open(counted) as file:
            self.count = int(file.read())
        return told

    def note(self, kind, end):
        self.ends.setdefault(kind, {}).setdefault(end, 0)
        self.ends[kind][end] += 1

    def blame(self, job, what, told):
        """Keeps what was wrong, where it was so first, and how often it was."""
        times, first = self.wrong.get((" ".join(job), str(told)), (0, what))
        self.wrong[" ".join(job), str(told)] = times + 1, first

    def judge(self, job, kind, usual, told, what):
        bad = fault(job[0], job[-1], told)
        if told.status == 99 and told.err == b"refuse: no stack\n":
            self.note(kind, "without stack")
        elif not bad and told.same(usual):
            self.note(kind, "as usual")
        elif not bad and ends_alike(job, usual, told):
            self.note(kind, "with more waits")
        elif not bad and tells(job, kind, usual, told):
            self.note(kind, "told")
        else:
            self.note(kind, "wrong")
            self.blame(job, what, bad or told)

    def numbers(self, count):
        """All numbers up to a count, or some of these, the first and the last ones among them."""
        if not self.most or count <= self.most:
            return range(1, count + 1)
        part = max(1, self.most // 4)
        between = {1 + i * (count - 1) // (2 * part) for i in range(2 * part)}
        return sorted(between | set(range(1, part + 1)) | set(range(count - part + 1, count + 1)))

    def one_by_one(self, job, kind, usual):
        """Each call refused alone, and it with all behind it."""
        self.refused(job, kind, 0, 0)
        count = self.count
        self.counts.append((kind, job[0], count))
        for number in self.numbers(count):
            for last, what in ((number, "alone"), (10**9, "and all behind it")):
                told = self.refused(job, kind, number, last)
                self.judge(job, kind, usual, told, f"{kind}: call {number} of {count} refused {what}")

    def short(self, job, usual):
        """Where each read and each write moves one byte, nothing changes but that the program's own write answers 1; a
        read that finds the end makes no crash."""
        front = usual.out[:1] if job[0] in ("plain", "run") else usual.out
        for kind, out in (("reads", usual.out), ("writes", front)):
            told = self.refused(job, kind, 1, 10**9, "short")
            alike = told.same(Outcome(usual.status, out, usual.err))
            self.note("short " + kind, "as wanted" if alike else "wrong")
            if not alike:
                self.blame(job, f"{kind} of one byte", told)
        self.refused(job, "reads", 0, 0)
        for number in self.numbers(self.count):
            told = self.refused(job, "reads", number, number, "end")
            bad = fault(job[0], job[-1], told)
            self.note("early ends", "wrong" if bad else f"status {told.status}")
            if bad:
                self.blame(job, f"read {number} finds the end", bad)

    def limited(self, words, limit):
        def narrow():
            resource.setrlimit(resource.RLIMIT_AS, (limit, limit))

        environment = {"LD_PRELOAD": os.path.join(self.folder, "refuse.so")}
        return outcome([self.program, *words], cwd=self.folder, env=environment, preexec_fn=narrow)

    def least_space(self):
        """The least address space, to 4 KiB, in which a command line is read."""
        low, high = 0, 1 << 32
        while high - low > 4096:
            middle = (low + high) // 2
            if self.limited(["plain"], middle).status == 120:
                high = middle
            else:
                low = middle
        return high

    def narrow(self, job, usual, least):
        for limit in limits(least):
            told = self.limited(job, limit)
            self.judge(job, "space", usual, told, f"{limit} bytes of address space")


def limits(least):
    """Address spaces from the least on: in steps of a page, of 512 KiB and by a fifth, up to 4 GiB."""
    yield from range(least, least + (64 << 12), 4096)
    yield from range(least + (1 << 18), least + (64 << 20), 1 << 19)
    size = least + (64 << 20)
    while size < 1 << 32:
        yield size
        size += size // 5


def prepare(program, folder):
    """The image, its data, its rewritten file and its trace."""
    with open(os.path.join(folder, "reads"), "wb") as file:
        file.write(runs.image_of(reader(6)))
    with open(os.path.join(folder, "data"), "wb") as file:
        file.write(bytes((31 * (i // 4096) + i) % 256 for i in range(6 * 4096)))
    for command, name in (("rewrite", "rewritten"), ("trace", "told")):
        made = outcome([program, command, "reads"], cwd=folder)
        with open(os.path.join(folder, name), "wb") as file:
            file.write(made.out)


def main():
    program, folder, most = os.path.abspath(sys.argv[1]), sys.argv[2], int(sys.argv[3])
    prepare(program, folder)
    refusals = Refusals(program, folder, most)
    least = refusals.least_space()
    for job in JOBS:
        usual = refusals.usual(job)
        for kind in ("memory", "reads", "writes"):
            refusals.one_by_one(job, kind, usual)
        refusals.short(job, usual)
        refusals.narrow(job, usual, least)
    for (job, told), (times, first) in refusals.wrong.items():
        print(f"hostile_calls: {job}: {told}: {times} times, first with {first}")
    counts = ", ".join(f"{job} {count}" for kind, job, count in refusals.counts if kind == "memory")
    print(f"hostile_calls: allocations: {counts}; least address space {least >> 10} KiB")
    told = "; ".join(f"{kind}: " + ", ".join(f"{times} {end}" for end, times in sorted(ends.items())) for kind, ends in refusals.ends.items())
    tried = sum(sum(ends.values()) for ends in refusals.ends.values())
    wrong = sum(times for times, _ in refusals.wrong.values())
    print(f"hostile_calls: {tried} runs, {wrong} wrong; {told}")
    sys.exit(1 if refusals.wrong else 0)


if __name__ == "__main__":
    main()
