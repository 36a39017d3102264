#!/usr/bin/env python3
"""Gives the built program little memory, and more from run to run: it ends with the status for that, has told a front of its output, and its store
shows exactly the steps whose `ok` was told, until it has enough.
"""
import os
import resource
import subprocess
import sys
import tempfile

from reference import histories, store
from reference.histories import COMPACT, NEW
from reference.program import PROGRAM, folder, run, short

# no store here has to outlive a stop of the machine
tempfile.tempdir = "/dev/shm" if os.path.isdir("/dev/shm") else None
STEPS = [histories.trust("A", "u"), histories.sample(7, 800), COMPACT, histories.date(1650000000), histories.options(histories.keyring.Options(level=1)), COMPACT]
# each step has two queries behind it, of which the second needs a state more than that of now
GIVEN = "".join(step.given + "check\nat 0 list\n" for step in STEPS).encode()
FIRST, FACTOR, MOST = 3_000_000, 1.02, 10**9
NO_MEMORY = (7, b"wot: out of memory\n")


def limited(size):
    def limits():
        resource.setrlimit(resource.RLIMIT_AS, (size, size))
    return limits


def runs(workers, whole, reached):
    """The statuses of runs with more and more memory."""
    size, found = FIRST, []
    while not found or found[-1] != 0:
        with folder() as where:
            done = subprocess.run([PROGRAM, "--workers", str(workers)], input=GIVEN, capture_output=True, cwd=where, timeout=120, preexec_fn=limited(int(size)), check=False)
            sides = store.read_sides(where)
        count = (histories.acknowledged(done.stdout) + 2) // 3
        if done.returncode != 127 or done.stdout:
            is_end = (done.returncode, done.stderr) == NO_MEMORY or (done.returncode, done.stdout, done.stderr) == (0, whole, b"")
            if not is_end or not whole.startswith(done.stdout) or store.shown(*sides) != reached[count]:
                sys.exit(f"little memory: {workers} workers, {int(size)} bytes: {count} steps acknowledged, {done.returncode} {done.stderr!r}, told {short(done.stdout)}")
            found.append(done.returncode)
        size *= FACTOR
        if size > MOST:
            sys.exit(f"little memory: {workers} workers do not come to their end within {MOST} bytes")
    return size, found


def main():
    whole, reached = run(GIVEN).stdout, histories.states(NEW, STEPS)
    said = []
    for workers in (1, 4):
        size, found = runs(workers, whole, reached)
        said.append(f"{workers} workers end for want of memory in {found.count(7)} runs, and come to their end with {size / 1e6:.0f} MB")
    print(f"little memory: ok: {'; '.join(said)}")


if __name__ == "__main__":
    main()
