#!/usr/bin/env python3
"""Changes valid files at random and gives them to the commands; see hostile_changes.sh.

Images go through `plain` and `run`, rewritten files too, and traces through `replay` and `plan`. Each run must end by
itself, within a second of the processor's time, with a status of the README's table and the text of that. Beyond that,
`run` ends as `plain` does where it comes to an end, and a rewritten file that is refused is so for its first reason;
a trace is refused at its first bad line, or has the totals that tests/plans.py computes; and each fiftieth run is made
again and must be alike.

Use: hostile_changes.py SPECHINT [COUNT [SEED]]
"""

import os
import random
import re
import sys
import tempfile

import plans
import runs
from outcomes import HERE, Outcome, fault, outcome, own_text

TURNS = ["--turns", "1000"]

# ---- files to be changed


def built_images():
    folders = [os.path.join(HERE, "crates", "spechint", "data"), os.path.join(HERE, "samples", "out")]
    paths = [os.path.join(folder, name) for folder in folders if os.path.isdir(folder) for name in sorted(os.listdir(folder))]
    return [open(path, "rb").read() for path in paths if os.path.isfile(path)]


class Sources:
    """Valid images, rewritten files and traces."""

    def __init__(self, program, folder):
        self.images = built_images() + [runs.image_of(runs.words_of(random.Random(number))) for number in range(20)]
        self.files, self.traces = [], [open(os.path.join(HERE, "samples", "reads.trace"), "rb").read(), plans.GOOD.encode()]
        path = os.path.join(folder, "image")
        for image in self.images:
            with open(path, "wb") as file:
                file.write(image)
            rewritten = outcome([program, "rewrite", "image"], cwd=folder)
            told = outcome([program, "trace", "--turns", "60000", "image"], cwd=folder)
            if rewritten.status == 0 and len(rewritten.out) < 200_000:
                self.files.append(rewritten.out)
            if 0 < len(told.out) < 200_000:
                self.traces.append(told.out)


# ---- changes


def changed_bytes(image, source):
    """A file with one to eight bytes or fields changed, most of them near the front, or cut off."""
    made = bytearray(image)
    for _ in range(source.randint(1, 8)):
        kind = source.randrange(6)
        front = min(len(made), 512)
        if not made:
            break
        if kind == 0:
            made[source.randrange(len(made))] = source.randrange(256)
        elif kind == 1:
            made[source.randrange(front)] ^= 1 << source.randrange(8)
        elif kind == 2:
            at = source.randrange(front) & ~7
            made[at : at + 8] = source.choice([0, 1, 2**63, 2**64 - 1, source.getrandbits(64)]).to_bytes(8, "little")
        elif kind == 3 and source.randrange(3) == 0:
            del made[source.randrange(len(made)) :]
        elif kind == 4 and source.randrange(3) == 0:
            made += bytes(source.randrange(256) for _ in range(source.randrange(64)))
        else:
            at = source.randrange(len(made)) & ~3
            made[at : at + 4] = source.getrandbits(32).to_bytes(4, "little")
    return bytes(made)


def changed_words(image, source):
    """A file with one to four words behind the headers changed: by a bit, at random, or to one from elsewhere."""
    made = bytearray(image)
    places = range(176 if len(made) > 180 else 120, len(made) - 3, 4)
    for _ in range(source.randint(1, 4)):
        at, other = source.choice(places), source.choice(places)
        kind = source.randrange(3)
        if kind == 0:
            made[at + source.randrange(4)] ^= 1 << source.randrange(8)
        elif kind == 1:
            made[at : at + 4] = source.getrandbits(32).to_bytes(4, "little")
        else:
            made[at : at + 4] = made[other : other + 4]
    return bytes(made)


def changed_once(image, source):
    """A file with one bit changed, anywhere."""
    made = bytearray(image)
    made[source.randrange(len(made))] ^= 1 << source.randrange(8)
    return bytes(made)


NUMBERS = [b"0", b"00", b"1", b"4096", b"65536", b"65537", str(2**44).encode(), str(2**56 - 1).encode(), str(2**56).encode()]
NUMBERS += [str(2**64 - 1).encode(), str(2**64).encode(), b"-1", b"-0", b"", b"x"]


def changed_lines(trace, source):
    """A trace with some lines taken away, told twice or exchanged, words changed, or bytes."""
    lines = trace.splitlines(True)
    for _ in range(source.randint(1, 4)):
        at = source.randrange(len(lines))
        kind = source.randrange(8)
        if kind == 0:
            lines[at] = b""
        elif kind == 1:
            lines[at] *= source.choice([2, 2, 100])
        elif kind == 2:
            other = source.randrange(len(lines))
            lines[at], lines[other] = lines[other], lines[at]
        elif kind in (3, 4, 5):
            words = lines[at].split(b" ")
            words[source.randrange(len(words))] = source.choice(NUMBERS)
            lines[at] = b" ".join(words) + (b"" if words[-1].endswith(b"\n") else b"\n")
        elif kind == 6:
            word = b" %d" % source.choice([0, 1, 63, 4095, 65535, 2**44 - 1, source.getrandbits(40)])
            lines[at] = re.sub(rb" \d+\n", word + b"\n", lines[at])
        else:
            made = bytearray(lines[at] or b"\n")
            made[source.randrange(len(made))] = source.choice(b" 0123456789abcdef\n\0\xff")
            lines[at] = bytes(made)
    made = b"".join(lines)
    return made[: source.randrange(len(made) + 1)] if source.randrange(8) == 0 else made


# ---- the grammar of a trace, by words


def decimal(most):
    return lambda word: re.fullmatch(rb"0|[1-9][0-9]*", word) is not None and int(word) <= most


def answer(word):
    return decimal(2**63)(word[1:]) and word != b"-0" if word[:1] == b"-" else decimal(2**63 - 1)(word)


def matching(pattern):
    return lambda word: re.fullmatch(pattern, word) is not None


COUNT, NAME = decimal(2**64 - 1), matching(rb"([0-9a-f]{2}){1,255}")
READ, BLOCK = [NAME, decimal(2**56 - 1), decimal(65536)], [NAME, decimal(2**44 - 1)]
FIELDS = {
    b"call": [COUNT, COUNT, COUNT, COUNT, answer],
    b"text": [matching(rb"[12]"), matching(rb"([0-9a-f]{2})+")],
    b"match": READ,
    b"restart": READ,
    b"hint": READ,
    b"fill": READ,
    b"stall": BLOCK,
    b"fetch": BLOCK,
    b"drop": BLOCK,
    b"lost": BLOCK,
    b"park": [matching(rb"Exit|Fault|Regions|LogFull|Store")],
    b"exit": [decimal(255)],
    b"trap": [matching(rb"Illegal|FetchOut|Misaligned|LoadOut|StoreOut|Break"), matching(rb"0x(0|[1-9a-f][0-9a-f]{0,15})")],
    b"fault": [matching(rb"store")],
    b"use": [COUNT],
    b"turns": [],
}


def is_line(line):
    words = line.split(b" ")
    if len(words) < 3 or not (COUNT(words[0]) and COUNT(words[1])):
        return False
    wanted, fields = FIELDS.get(words[2]), words[3:]
    return wanted is not None and len(wanted) == len(fields) and all(test(field) for test, field in zip(wanted, fields))


def first_bad(trace):
    """The number of the first bad line, or None. Bytes behind the last newline are one."""
    *lines, rest = trace.split(b"\n")
    for number, line in enumerate(lines, 1):
        if not is_line(line):
            return number
    return len(lines) + 1 if rest else None


def reads_of(trace):
    """The lines of a good trace, as plans.py has them."""
    lines = []
    for line in trace.splitlines():
        words = line.split(b" ")
        own, keyword = int(words[0]), words[2].decode()
        read = (words[3], int(words[4]), int(words[5])) if keyword in ("match", "restart", "hint") else ("", 0, 0)
        lines.append((own, 0, keyword, *read))
    return lines


# ---- the runs


class Changes:
    """The runs made so far, by command and status, and what was wrong."""

    def __init__(self, program, folder, source):
        self.program, self.folder, self.source = program, folder, source
        self.statuses, self.wrong, self.tried, self.slowest = {}, 0, 0, 0.0

    def told(self, command, *options):
        words = [self.program, command, *options, "changed"]
        told = outcome(words, wait=20, cwd=self.folder)
        bad = fault(command, "changed", told, most=1.0)
        if not bad and self.source.randrange(50) == 0 and not outcome(words, wait=20, cwd=self.folder).same(told):
            bad = "not alike twice"
        known = told.status in (117, 118, 119, 120, 121, 122, 123, 124, 125, 126) and own_text(told, "changed") is not None
        ended = f"{told.status}" if known or told.status in (None, 0) or told.status < 0 else "exit"
        of_command = self.statuses.setdefault(command, {})
        of_command[ended] = of_command.get(ended, 0) + 1
        self.tried += 1
        self.slowest = max(self.slowest, told.seconds)
        return told, bad and f"{command} {' '.join(options)}: {bad}"

    def image(self):
        plain, bad = self.told("plain", *TURNS)
        pattern = runs.pattern_of(self.source)
        run, also = self.told("run", *TURNS, "--pattern", pattern)
        return bad or also or self.other_end(plain, run, pattern)

    def other_end(self, plain, run, pattern):
        """What is wrong with a run beside the program by itself, which completes no fewer instructions in its turns."""
        if 124 not in (plain.status, run.status):
            return None if run.same(plain) else f"run --pattern {pattern}: {run}, and plain: {plain}"
        fronts = plain.out.startswith(run.out) and (plain.err if plain.status != 124 else own_text(plain, "changed")).startswith(own_text(run, "changed") or b"")
        return None if run.status == 124 and fronts else f"run --pattern {pattern}: {run}, and plain: {plain}"

    def file(self):
        plain, bad = self.told("plain", *TURNS)
        run, also = self.told("run", *TURNS)
        if bad or also:
            return bad or also
        if plain.status != 121:
            return f"plain: {plain}, of a rewritten file"
        already = b": refused: E12 Already\n" in plain.err
        return None if already or run.same(plain) else f"run: {run}, and plain: {plain}"

    def trace(self, made):
        number = first_bad(made)
        blocks = self.source.choice([1, 2, 3, 7, 256, 65536])
        depth, every = self.source.choice([1, 2, 64]), self.source.choice([1, 7, 10**15])
        replay, bad = self.told("replay", "--blocks", str(blocks), "--depth", str(depth), "--every", str(every))
        plan, also = self.told("plan", "--blocks", str(blocks))
        if bad or also:
            return bad or also
        if number is None:
            lines = reads_of(made)
            needs = plans.needs_of(lines)
            totals = plans.replayed(lines, blocks, depth, every)
            wanted = "replay reads {} needs {} stalls {} fetches {}\n".format(*totals)
            planned = f"plan needs {len(needs)} fetches {plans.farthest(needs, blocks)} blocks {blocks}\n"
            pairs = ((replay, Outcome(0, wanted.encode(), b"")), (plan, Outcome(0, planned.encode(), b"")))
        else:
            line = Outcome(118, b"", f"spechint: changed: bad line {number}\n".encode())
            pairs = ((replay, line), (plan, line))
        for told, want in pairs:
            if not told.same(want):
                return f"{told} {told.out!r}, not {want} {want.out!r}, with {blocks} blocks, {depth} queued, every {every}"
        return None

    def one(self, sources):
        """A file changed, and what is wrong with its runs, if anything is."""
        kind = self.source.randrange(5)
        if kind < 2:
            change = self.source.choice([changed_bytes, changed_words, changed_words, changed_once])
            made, test = change(self.source.choice(sources.images), self.source), self.image
        elif kind == 2:
            change = self.source.choice([changed_bytes, changed_words, changed_once])
            made, test = change(self.source.choice(sources.files), self.source), self.file
        else:
            made = changed_lines(self.source.choice(sources.traces), self.source)
            test = lambda: self.trace(made)
        with open(os.path.join(self.folder, "changed"), "wb") as file:
            file.write(made)
        return test()


def main():
    program = os.path.abspath(sys.argv[1])
    count = int(sys.argv[2]) if len(sys.argv) > 2 else 10000
    source = random.Random(int(sys.argv[3]) if len(sys.argv) > 3 else 1)
    with tempfile.TemporaryDirectory() as folder:
        with open(os.path.join(folder, "data"), "wb") as file:
            file.write(bytes((31 * (i // 4096) + i) % 256 for i in range(5 * 4096 + 1000)))
        sources, changes = Sources(program, folder), Changes(program, folder, source)
        for number in range(count):
            bad = changes.one(sources)
            if bad:
                changes.wrong += 1
                kept = os.path.join(tempfile.gettempdir(), f"hostile_{number}")
                os.replace(os.path.join(folder, "changed"), kept)
                print(f"hostile_changes: number {number}, kept as {kept}: {bad}")
    told = "; ".join(f"{command}: " + ", ".join(f"{times} of {status}" for status, times in sorted(ends.items())) for command, ends in sorted(changes.statuses.items()))
    print(f"hostile_changes: {count} files, {changes.tried} runs, {changes.wrong} wrong, the slowest {changes.slowest:.2f} s; by status: {told}")
    sys.exit(1 if changes.wrong else 0)


if __name__ == "__main__":
    main()
