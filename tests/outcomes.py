"""What a command of spechint comes to, and whether the README's table of statuses has that."""

import os
import re
import resource
import subprocess
import time

HERE = os.path.dirname(os.path.dirname(os.path.abspath(__file__)))

REFUSALS = (
    "TooLong Short Magic Class ByteOrder Version Kind Machine Flags HeaderTable Dynamic Already Segment NoText Sections Text Entry"
).split()
TRAPS = "Illegal FetchOut Misaligned LoadOut StoreOut Break".split()

# The text of each status that has one, behind what the program itself put on standard error.
TEXTS = {
    117: "NAME: too many needs",
    118: "NAME: bad line [1-9][0-9]*",
    119: "cannot find NAME",
    120: "usage: .*",
    121: "NAME: refused: (" + "|".join(f"E{number} {name}" for number, name in enumerate(REFUSALS, 1)) + ")",
    122: "read fault",
    124: "turns over after [0-9]+ instructions",
    125: "out of memory",
    126: "trap (" + "|".join(TRAPS) + ") at 0x[0-9a-f]+",
    127: "not built yet",
}
RUNS = ("plain", "run", "trace")


class Outcome:
    """A status, what was put on standard output and on standard error, and the time of the processor that it took."""

    def __init__(self, status, out, err, seconds=0.0):
        self.status, self.out, self.err, self.seconds = status, out, err, seconds

    def same(self, other):
        return (self.status, self.out, self.err) == (other.status, other.out, other.err)

    def __str__(self):
        return f"status {self.status}, {len(self.out)} bytes, {self.err[-120:]!r}"


def outcome(words, wait=60, **more):
    """Runs a command. One that hasn't ended by itself after so many seconds has the status None."""
    before = resource.getrusage(resource.RUSAGE_CHILDREN)
    try:
        ran = subprocess.run(words, stdin=subprocess.DEVNULL, capture_output=True, timeout=wait, **more)
        status, out, err = ran.returncode, ran.stdout, ran.stderr
    except subprocess.TimeoutExpired as late:
        status, out, err = None, late.stdout or b"", late.stderr or b""
    after = resource.getrusage(resource.RUSAGE_CHILDREN)
    return Outcome(status, out, err, after.ru_utime + after.ru_stime - before.ru_utime - before.ru_stime)


def own_text(told, name):
    """What the program itself put on standard error, where the status has its text behind that; else None."""
    if told.status not in TEXTS:
        return told.err
    text = ("spechint: " + TEXTS[told.status] + "\n").replace("NAME", re.escape(name))
    found = re.search(text.encode("utf-8", "surrogateescape") + rb"\Z", told.err)
    return told.err[: found.start()] if found else None


def fault(command, name, told, most=None):
    """What is wrong with an outcome by the table, if anything is; also that it took more than so many seconds."""
    if told.status is None:
        return "hasn't ended"
    if told.status < 0:
        return f"ended by signal {-told.status}"
    if most is not None and told.seconds > most:
        return f"took {told.seconds:.1f} seconds of the processor"
    own = own_text(told, name)
    if command in RUNS:
        # A program may exit with any code, and then no text of a status stands last.
        bare = told.err.rpartition(b"spechint: ")[1] == b""
        return None if own is not None or bare else f"{told}: not the text of that status"
    if own is None or own:
        return f"{told}: not the text of that status"
    known = {0: b"", 117: b"", 118: b"", 119: b"", 120: b"", 121: b"", 122: b"", 123: b"", 125: b""}
    return None if told.status in known else f"{told}: no status of {command}"


def spent():
    """The seconds since this was first called."""
    spent.start = getattr(spent, "start", time.monotonic())
    return time.monotonic() - spent.start
