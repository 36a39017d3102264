#!/usr/bin/env python3
"""Ends the built program by signal 9 within the creation of a store, within `compact` and within edits, on real files, and opens the store again.

crash.py PROGRAM [--count STOPS] [--seed NUMBER]: a stop is aimed at a command by a delay that is drawn anew each time, and counts where it came
after the first byte of what that command writes and before its `ok`. After each, counted or not, a second reader of the files and the program find
the same: the store after a prefix of the steps that holds each acknowledged one, and at most one more.
"""
import argparse
import os
import random
import signal
import subprocess
import sys
import time

from reference import histories, store
from reference.histories import ASKED, COMPACT, NEW, Steps
from reference.program import PROGRAM, folder, run

# what is stopped in a store that is there; a store is left for a new one after some stops
AIMS = ("compact", "compact", "edit")
STOPS_OF_A_STORE = 12
# of each aim the longest delay, in seconds, which is made to fit
delays = {"creation": 0.005, "compact": 0.005, "edit": 0.002}


def begun(where, steps):
    """A run that has answered some steps."""
    child = subprocess.Popen([PROGRAM], stdin=subprocess.PIPE, stdout=subprocess.PIPE, cwd=where)
    child.stdin.write("".join(step.given for step in steps).encode())
    child.stdin.flush()
    told = b""
    while histories.acknowledged(told) < len(steps):
        line = child.stdout.readline()
        if not line:
            sys.exit(f"crash: the run ended after {told!r}")
        told += line
    return child


def killed(child, last, delay):
    """Gives a run a step more, or nothing, and ends it after a while; whether the step was acknowledged."""
    if last:
        child.stdin.write(last.given.encode())
        child.stdin.flush()
    time.sleep(delay)
    os.kill(child.pid, signal.SIGKILL)
    told = child.communicate()[0]
    return histories.acknowledged(told) > 0


def read(where, due):
    """The files, which are these where it is known."""
    sides = store.read_sides(where)
    if due and sides != due:
        sys.exit(f"crash: {said()}: the files are not those of the steps that were acknowledged")
    return sides


def place(aim, before, now, is_acknowledged):
    """Where a stop came, by what it left."""
    if is_acknowledged or (aim == "creation" and not all(map(store.is_blank, now))):
        return "after"
    return "before" if now == before else "within"


def reopened(where, sides, wanted):
    """What a stopped store shows, to a second reader and to the program; it must be one of these, and stay as it is."""
    found = store.shown(*sides)
    if found not in wanted:
        sys.exit(f"crash: {said()}: the files show {found!r}, which is none of {wanted!r}")
    done = run(ASKED, where=where)
    if (done.returncode, done.stdout, done.stderr) != (0, histories.shows(found.state), b""):
        sys.exit(f"crash: {said()}: the files show {found!r}, and the program tells {done!r}")
    left = store.read_sides(where)
    if store.shown(*left) != found or (left != sides and not all(map(store.is_blank, sides))):
        sys.exit(f"crash: {said()}: the files were written by queries")
    return found


def stop(where, found, steps, aim):
    """Stops a run that goes on from what the store shows; where the stop came, and what the store shows then."""
    first, reached = ([], [found]) if aim == "creation" else steps.some(found, chance.randrange(1, 4))
    last = None if aim == "creation" else COMPACT if aim == "compact" else steps.edit(reached[-1])
    before = store.read_sides(where)
    child = begun(where, first)
    if first:
        # the run waits for its input
        before = read(where, histories.files(before, first)[-1])
    is_acknowledged = killed(child, last, chance.random() * delays[aim])
    sides = read(where, histories.written(before, last) if is_acknowledged else None)
    came = place(aim, before, sides, is_acknowledged)
    delays[aim] *= {"before": 1.3, "within": 1, "after": 0.9}[came]
    due = histories.after(reached[-1], last) if last else found
    found = reopened(where, sides, [due] if is_acknowledged else [reached[-1], due])
    if all(map(store.is_blank, sides)):
        # the reopening made the store: the next stop is over what this one left
        store.write_sides(where, sides)
    return came, found


def said():
    return f"seed {asked.seed}, stop {sum(tried.values()) + 1}"


def stops_of_a_store(steps):
    """Stops of one store, first of its creation, until it is made."""
    found = NEW
    with folder() as where:
        for _ in range(STOPS_OF_A_STORE):
            is_new = all(map(store.is_blank, store.read_sides(where)))
            aim = "creation" if is_new else chance.choice(AIMS)
            came, found = stop(where, found, steps, aim)
            tried[aim] += 1
            within[aim] += came == "within"
            if sum(within.values()) == asked.count:
                return


parser = argparse.ArgumentParser()
parser.add_argument("program")
parser.add_argument("--count", type=int, default=50)
parser.add_argument("--seed", type=int, default=1)
asked = parser.parse_args()
chance = random.Random(asked.seed)
tried, within = dict.fromkeys(delays, 0), dict.fromkeys(delays, 0)
while sum(within.values()) < asked.count and sum(tried.values()) < 40 * asked.count:
    stops_of_a_store(Steps(chance, made=120))
if sum(within.values()) < asked.count:
    sys.exit(f"crash: seed {asked.seed}: of {sum(tried.values())} ends by signal 9 only {sum(within.values())} came within a command")
came_within = ", ".join(f"{count} within {aim}" for aim, count in within.items())
print(f"crash: seed {asked.seed}: {sum(within.values())} stops, {came_within}, among {sum(tried.values())} ends by signal 9: each acknowledged step kept")
