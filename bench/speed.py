"""Runs a command once, and tells how many of a thing it does a second.

Use: speed.py NAME COUNT THING COMMAND..
The count is of the things that the command does. Two speeds are told: by the clock, and by the
processor's time of the command alone, which other work on the machine disturbs less. The most memory
that the command held is told too.
"""
import resource
import subprocess
import sys
import time

name, count, thing, command = sys.argv[1], int(sys.argv[2]), sys.argv[3], sys.argv[4:]


def processor_time():
    used = resource.getrusage(resource.RUSAGE_CHILDREN)
    return used.ru_utime + used.ru_stime


def speed(seconds):
    return f"{count / seconds:,.0f} a second" if seconds > 0 else "no time that can be told"


before = processor_time()
begun = time.monotonic()
status = subprocess.run(command).returncode
clock = time.monotonic() - begun
processor = processor_time() - before
if status != 0:
    sys.exit(f"{name}: exit status {status}")

print(
    f"{name}: {count:,} {thing}; by the clock {clock:.3f} s, {speed(clock)};"
    f" by the processor {processor:.3f} s, {speed(processor)};"
    f" at most {resource.getrusage(resource.RUSAGE_CHILDREN).ru_maxrss:,} KiB resident"
)
