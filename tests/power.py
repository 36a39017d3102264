#!/usr/bin/env python3
"""Lets the power fail at each call that the built program makes on the files of its store.

power.py PROGRAM [--count SESSIONS] [--seed NUMBER] [--most IMAGES]: a session is edits and compactions at random, and begins over files that a
crash of the session before it may have left. strace tells its calls. After each the files are made as a crash may leave them: with each set of
the writes since a file's last sync, and, in a sample, with other bytes in place of some, and with a file that ends anywhere behind what is on the
disk for sure. Each is opened: a second reader and the program find the same, which is the store after all steps whose `ok` was told by then, or
after one more. It skips where there is no strace.
"""
import argparse
import itertools
import os
import random
import re
import shutil
import subprocess
import sys
import tempfile
from concurrent.futures import ThreadPoolExecutor

from reference import histories, store
from reference.histories import ASKED, Steps
from reference.program import PROGRAM, folder, run, short

STEPS, SETS = 10, 6
FILLS = (b"\0", b"\xa5", b"\xff")
CALL = re.compile(r'^\d+ +(openat|lseek|write|pwrite64|writev|ftruncate|fsync|fdatasync)\((?:AT_FDCWD|(\d+))(?:, "((?:\\x[0-9a-f]{2})*)")?(.*)\) += (-?\d+)')


class File:
    """What a file reads, what of it is on the disk for sure, and what was written since."""

    def __init__(self, data):
        self.reads, self.synced, self.pending, self.place = data, data, [], 0

    def write(self, data):
        at = self.place
        self.reads = self.reads[:at] + data + self.reads[at + len(data):]
        self.pending.append((at, data))
        self.place = at + len(data)

    def sync(self):
        self.synced, self.pending = self.reads, []

    def image(self, pieces):
        """The file with these bytes in place of the pending writes; nothing leaves what stood there."""
        data = self.synced
        for (at, _), piece in zip(self.pending, pieces):
            if piece is not None:
                data = data.ljust(at, b"\0")[:at] + piece + data[at + len(piece):]
        return data

    def sets(self):
        """What a crash may leave of the file, where each write since its last sync is there or not."""
        written = [data for _, data in self.pending]
        size = len(written)
        if size <= SETS:
            kept = itertools.product((False, True), repeat=size)
        else:
            fronts = ([n < end for n in range(size)] for end in range(size + 1))
            kept = itertools.chain(fronts, ([chance.random() < 0.5 for _ in range(size)] for _ in range(2**SETS)))
        return {self.image([data if keep else None for data, keep in zip(written, keeps)]) for keeps in kept}

    def others(self):
        """The same with other bytes in place of one write or of some, and ended earlier."""
        written = [data for _, data in self.pending]
        for number, data in enumerate(written):
            cut = [chance.randbytes(chance.randrange(len(data) + 1)), data[:chance.randrange(len(data) + 1)]]
            for piece in [*(fill * len(data) for fill in FILLS), chance.randbytes(len(data)), *cut]:
                yield self.image([piece if n == number else None for n in range(len(written))])
                yield self.image([piece if n == number else other for n, other in enumerate(written)])
                yield self.image([piece if n == number else chance.choice([None, other, chance.choice(FILLS) * len(other)]) for n, other in enumerate(written)])
        for image in sorted(self.sets()) if written else ():
            yield image[:chance.randrange(min(len(self.synced), len(image)), len(image) + 1)]


def calls(log):
    """The calls on the files in their order, and what was told: a name, the file or nothing, and the bytes or the place."""
    names = {}
    for line in log.splitlines():
        found = CALL.match(line)
        if not found or int(found[5]) < 0:
            continue
        name, number, data, rest, result = found.groups()
        text = bytes.fromhex((data or "").replace("\\x", ""))
        if name == "openat":
            names[result] = text.decode(errors="replace")
        elif number == "1":
            yield "tell", None, text
        elif names.get(number) in store.NAMES:
            yield name, store.NAMES.index(names[number]), text[:int(result)] if name == "write" else int(result)


def moments(log, sides):
    """The files at first, after each call on them that is a write or a sync, and at last, with what was told by then."""
    files, told = tuple(map(File, sides)), b""
    yield files, told
    for name, side, what in calls(log):
        if name == "tell":
            told += what
        elif name == "lseek":
            files[side].place = what
        elif name == "write":
            files[side].write(what)
            yield files, told
        elif name in ("fsync", "fdatasync"):
            files[side].sync()
            yield files, told
        else:
            sys.exit(f"power: {name} is a call that is not looked at")
    yield files, told


def images(files):
    """What a crash may leave now."""
    sets = [file.sets() for file in files]
    others = [{*found, *file.others()} for found, file in zip(sets, files)]
    sure = set(itertools.product(*sets))
    more = sorted(set(itertools.product(*others)) - sure)
    return sorted(sure) + chance.sample(more, min(asked.most, len(more)))


def recorded(given, sides):
    """A session over these files, its calls, and the files at its end."""
    with folder() as where, tempfile.NamedTemporaryFile() as log:
        store.write_sides(where, sides)
        traced = ["strace", "-f", "-xx", "-s", "1000000", "-e", "trace=openat,lseek,write,pwrite64,writev,ftruncate,fsync,fdatasync", "-o", log.name, PROGRAM]
        done = subprocess.run(traced, input=given.encode(), capture_output=True, cwd=where, timeout=120, check=False)
        return done, log.read().decode(), store.read_sides(where)


def differs(sides, due, texts):
    """What a second reader finds in these files and what the program does, where it is none of what is due, which the program tells so, or they differ."""
    found = store.shown(*sides)
    with folder() as where:
        store.write_sides(where, sides)
        done = run(ASKED, where=where)
        left = store.read_sides(where)
    is_kept = left == sides or (all(map(store.is_blank, sides)) and store.shown(*left) == found)
    is_told = (done.returncode, done.stderr) == (0, b"") and any((found, done.stdout) == both for both in zip(due, texts))
    if is_kept and is_told:
        return None
    return f"a second reader finds {short(repr(found))}, the program ends with {done.returncode} {done.stderr!r} and tells {short(done.stdout)}, in place of {short(repr(due))}"


def session(number, sides):
    """One session: how many moments and images there were, and files that a crash of it may have left."""
    steps, reached = Steps(chance).some(store.shown(*sides), STEPS)
    done, log, left = recorded("".join(step.given for step in steps), sides)
    if done.returncode or histories.acknowledged(done.stdout) != STEPS:
        sys.exit(f"power: seed {asked.seed}, session {number}: the run under strace ended with {done.returncode} {done.stderr!r}")
    if left != histories.files(sides, steps)[-1] or store.shown(*left) != reached[-1]:
        sys.exit(f"power: seed {asked.seed}, session {number}: the files at its end are not those of {[step.given for step in steps]}")
    texts = [histories.shows(found.state) for found in reached]
    tried, moment = {}, 0
    for moment, (files, told) in enumerate(moments(log, sides), 1):
        count = histories.acknowledged(told)
        for image in images(files):
            tried.setdefault((image, count), moment)
    if tuple(file.reads for file in files) != left:
        sys.exit("power: strace does not tell all that was written")
    with ThreadPoolExecutor(2) as pool:
        found = pool.map(lambda one: differs(one[0], reached[one[1]:one[1] + 2], texts[one[1]:one[1] + 2]), tried)
        wrong = [(place, said) for place, said in zip(tried.values(), found) if said]
    if wrong:
        sys.exit(f"power: seed {asked.seed}, session {number}: {len(wrong)} of {len(tried)} images, first at moment {wrong[0][0]}: {wrong[0][1]}")
    return moment, len(tried), chance.choice(list(tried))[0]


def main():
    if not shutil.which("strace"):
        print("power: skipped: no strace")
        return
    if recorded("", (b"", b""))[0].returncode:
        print("power: skipped: no run under strace")
        return
    sides, places, tried = (b"", b""), 0, 0
    for number in range(1, asked.count + 1):
        more, images_of_it, sides = session(number, sides)
        places, tried = places + more, tried + images_of_it
    print(f"power: seed {asked.seed}: {tried} pairs of files at {places} moments of {asked.count} sessions, each with every acknowledged step")


if __name__ == "__main__":
    parser = argparse.ArgumentParser()
    parser.add_argument("program")
    parser.add_argument("--count", type=int, default=2)
    parser.add_argument("--seed", type=int, default=5)
    parser.add_argument("--most", type=int, default=100)
    asked = parser.parse_args()
    chance = random.Random(asked.seed)
    tempfile.tempdir = "/dev/shm" if os.path.isdir("/dev/shm") else None
    main()
