#!/usr/bin/env python3
"""Builds the program `spechint`, proved, with the crates that it stands on, lowest first.

Each crate is proved and built by one call of the kit's `rattle build`, as many side by side as there are processors. A
library is written with its statements alone, which is all that the crates above it read. What is built is kept in
out/libraries, with a stamp of all that it was built from: where this is stopped it goes on from there. It tells on
standard error which crate is being built and how long it took so far, and writes to out/build/seconds.txt how many
processor seconds each crate took, in the form of setup/seconds.txt. Usage: setup/build.py [NAME] builds the program
crate NAME (spechint).
"""

import hashlib
import os
import shutil
import subprocess
import sys
import time

TOP = os.path.dirname(os.path.dirname(os.path.realpath(__file__)))
LOG = os.path.join(TOP, "build.log")
SECONDS = os.path.join(TOP, "setup", "seconds.txt")
LIBRARIES = os.path.join(TOP, "out", "libraries")
OUTPUTS = os.path.join(TOP, "out", "build")
# What a crate is taken to need that was not measured yet.
USUAL_SECONDS = 40
TARGET = "x86_64-unknown-linux-gnu"


def uses_of_crates():
    """The libraries that each crate uses, by name, as crates.txt gives them."""
    uses = {}
    with open(os.path.join(TOP, "crates.txt"), encoding="utf-8") as lines:
        for line in lines:
            name, colon, rest = line.split("#")[0].partition(":")
            if colon:
                uses[name.split()[0]] = rest.split()
    return uses


def seconds_of_crates():
    """How many seconds the proof of each crate took when it was measured, as setup/seconds.txt gives them."""
    with open(SECONDS, encoding="utf-8") as lines:
        rows = [line.split("#")[0].split() for line in lines]
    return {row[0]: int(row[1]) for row in rows if row}


def below(name, uses):
    """The crates that a crate stands on, and itself."""
    found, waiting = set(), [name]
    while waiting:
        one = waiting.pop()
        if one not in found:
            found.add(one)
            waiting += [it for it in uses[one] if it in uses]
    return found


def weights(names, uses, seconds):
    """For each crate the seconds of the longest chain of crates from it upwards: what waits for it."""
    above = {name: [it for it in names if name in uses[it]] for name in names}
    known = {}

    def weight(name):
        if name not in known:
            known[name] = seconds[name] + max((weight(it) for it in above[name]), default=0)
        return known[name]

    return {name: weight(name) for name in names}


def digest(parts):
    """One word for a list of lists of bytes."""
    found = hashlib.sha256()
    for part in parts:
        found.update(str(len(part)).encode() + b":" + part)
    return found.hexdigest()


def contents(file):
    with open(file, "rb") as it:
        return it.read()


def sources(folder):
    """The name and the contents of each file of a crate that its proof reads."""
    found = []
    for part in ("src", "specs", "proofs"):
        for at, _, names in os.walk(os.path.join(folder, part)):
            for name in names:
                file = os.path.join(at, name)
                found += [os.path.relpath(file, folder).encode(), contents(file)]
    pairs = sorted(zip(found[::2], found[1::2]))
    return [it for pair in pairs for it in pair]


class Kit:
    """The commands of the kit, and the words that they take."""

    def __init__(self):
        command = shutil.which("rt")
        if not command:
            sys.exit("spechint: the kit's command rt isn't on the PATH")
        self.folder = os.path.dirname(os.path.dirname(os.path.realpath(command)))
        self.version = contents(os.path.join(self.folder, "KIT-ID"))

    def library(self, name):
        return os.path.join(self.folder, "rlibs", f"{name}.rlib")

    def words(self, name, root, libraries, jobs):
        """The words of `rattle build` for a crate whose root file and whose own libraries are given."""
        words = ["--crate-name", name, root, "--jobs", str(jobs), "--links", f"{name}="]
        words += ["-L", f"dependency={self.folder}/rlibs", "-L", f"dependency={LIBRARIES}"]
        words += ["--antt-project", f"{self.folder}/rattle/logic/antt-project.json"]
        words += ["--logic-built", f"{self.folder}/logic_built"]
        for it, file in libraries:
            words += ["--extern", f"{it}={file}"]
        return [f"{self.folder}/bin/rattle", "build", *words]

    def link(self, program):
        """The words that link a program's object file, with the parts of the kit's C library that it calls."""
        words = ["--target", TARGET, "--toolchain", f"{self.folder}/toolchain", "-o", program, f"{program}.o"]
        return [f"{self.folder}/bin/rattle-link", *words, f"{self.folder}/c/libos_c.a", f"{self.folder}/c/liblibc_c.a"]


class Build:
    """What is built, what runs, and what is told of it."""

    def __init__(self, goal, kit):
        self.kit, self.goal = kit, goal
        self.uses = uses_of_crates()
        self.names = below(goal, self.uses)
        measured = seconds_of_crates()
        self.seconds = {it: measured.get(it, USUAL_SECONDS) for it in self.names}
        self.weights = weights(self.names, self.uses, self.seconds)
        self.stamps = {}
        self.done, self.running, self.took = set(), {}, {}
        self.start = time.monotonic()
        self.cores = len(os.sched_getaffinity(0))

    def tell(self, text):
        passed = int(time.monotonic() - self.start)
        print(f"spechint: {text} ({passed // 60}:{passed % 60:02})", file=sys.stderr, flush=True)

    def folder(self, name):
        return os.path.join(TOP, "crates", name)

    def made(self, name):
        """The file of a built crate: a library, or the program."""
        return os.path.join(self.folder(name), "out", name) if name == self.goal else os.path.join(LIBRARIES, f"{name}.rlib")

    def stamp(self, name):
        """A word for all that a crate is built from: the kit, its own files, and the libraries below it."""
        if name not in self.stamps:
            under = [f"{it} {self.stamp(it)}".encode() for it in self.uses[name] if it in self.uses]
            self.stamps[name] = digest([self.kit.version, *under, *sources(self.folder(name))])
        return self.stamps[name]

    def stamp_file(self, name):
        return os.path.join(LIBRARIES, f"{name}.made-from")

    def is_made(self, name):
        file = self.stamp_file(name)
        return os.path.exists(self.made(name)) and os.path.exists(file) and contents(file).decode() == self.stamp(name)

    def words(self, name, jobs):
        """The command that proves and builds a crate."""
        libraries = [(it, self.made(it) if it in self.uses else self.kit.library(it)) for it in ["std", *self.uses[name]]]
        words = self.kit.words(name, "src/main.rt" if name == self.goal else "src/lib.rt", libraries, jobs)
        if name == self.goal:
            return [*words, "--toolchain", f"{self.kit.folder}/toolchain", "--backend", "llvm", "-o", self.made(name) + ".o"]
        return [*words, "--statements", "-o", self.made(name)]

    def ready(self):
        """The crates that can be begun now, those first for which most waits."""
        left = self.names - self.done - set(self.running)
        free = [it for it in left if all(below in self.done for below in self.uses[it] if below in self.uses)]
        return sorted(free, key=lambda it: -self.weights[it])

    def share_done(self):
        """How many percent of the work are done, by the measured seconds."""
        return 100 * sum(self.seconds[it] for it in self.done) // sum(self.seconds.values())

    def is_pressing(self, name):
        """Whether what waits for a crate takes longer than an even share of all that is left."""
        left = sum(self.seconds.values()) - sum(self.seconds[it] for it in self.done)
        return self.weights[name] * self.cores > left

    def begin(self, name, jobs):
        if os.path.exists(self.stamp_file(name)):
            os.remove(self.stamp_file(name))
        os.makedirs(os.path.dirname(self.made(name)), exist_ok=True)
        self.stamp(name)
        with open(os.path.join(OUTPUTS, name), "wb") as output:
            how = {"cwd": self.folder(name), "stdin": subprocess.DEVNULL, "stdout": output, "stderr": output}
            self.running[name] = subprocess.Popen(self.words(name, jobs), start_new_session=True, **how)
        self.tell(f"building {len(self.done) + len(self.running)} of {len(self.names)}: {name}, {self.share_done()}% done")

    def begin_ready(self):
        ready = self.ready()
        room = self.cores - len(self.running)
        for name in ready[: max(room, 0)]:
            self.begin(name, self.cores if self.is_pressing(name) else max(1, room // len(ready)))

    def end_one(self):
        """Waits for a crate to end, and gives its name and whether it was built."""
        process, status, usage = os.wait4(-1, 0)
        name = next(it for it, one in self.running.items() if one.pid == process)
        self.running.pop(name).returncode = os.waitstatus_to_exitcode(status)
        self.took[name] = round(usage.ru_utime + usage.ru_stime)
        return name, status == 0 and (name != self.goal or self.link())

    def link(self):
        """Links the program, and tells whether that worked."""
        with open(os.path.join(OUTPUTS, self.goal), "ab") as output:
            words = self.kit.link(self.made(self.goal))
            return subprocess.run(words, stdin=subprocess.DEVNULL, stdout=output, stderr=output).returncode == 0

    def keep(self, name):
        """Notes what a crate was built from, if that is still what stands in its folder."""
        self.done.add(name)
        stamp = self.stamps.pop(name)
        if self.stamp(name) == stamp:
            with open(self.stamp_file(name), "w", encoding="utf-8") as it:
                it.write(stamp)

    def stop(self):
        for process in self.running.values():
            os.killpg(process.pid, 9)

    def crates(self):
        """Builds each crate that isn't yet, and gives the name of one that failed, if any did."""
        self.done = {it for it in self.names if self.is_made(it)}
        self.begin_ready()
        while self.running:
            name, built = self.end_one()
            if not built:
                self.stop()
                return name
            self.keep(name)
            self.begin_ready()
        return None

    def note_seconds(self):
        """Writes how many processor seconds each crate took, those that were built in this call."""
        with open(os.path.join(OUTPUTS, "seconds.txt"), "w", encoding="utf-8") as output:
            output.writelines(f"{name} {seconds}\n" for name, seconds in self.took.items())


def fail(name):
    text = contents(os.path.join(OUTPUTS, name))
    with open(LOG, "wb") as it:
        it.write(text)
    last = text.decode("utf-8", "replace").splitlines()[-8:]
    print(f"spechint: {name} could not be built; {LOG} ends with", *last, sep="\n", file=sys.stderr)
    sys.exit(1)


def main():
    goal = sys.argv[1] if len(sys.argv) > 1 else "spechint"
    build = Build(goal, Kit())
    os.makedirs(LIBRARIES, exist_ok=True)
    os.makedirs(OUTPUTS, exist_ok=True)
    build.tell(f"built once, and proved: {len(build.names)} crates on {build.cores} processors")
    try:
        failed = build.crates()
    except KeyboardInterrupt:
        build.stop()
        sys.exit("spechint: stopped; the next call goes on from here")
    if failed:
        fail(failed)
    build.note_seconds()
    build.tell("built")


if __name__ == "__main__":
    main()
