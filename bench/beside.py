#!/usr/bin/env python3
"""The same work by two built programs, in turn: the least seconds of several, instructions where valgrind is there, and memory at the peak.

beside.py OLD NEW [--keys NUMBER] [--times NUMBER]: ends with 1 where the new program takes more than 1.05 times as much as the old one, of instructions,
or of least time where they can't be counted, or of memory; else with 0. Each program works on stores that it made itself.
"""
import argparse
import contextlib
import itertools
import os
import re
import shutil
import subprocess
import sys
import tempfile
from collections.abc import Iterator
from typing import NamedTuple

import bases
import growth
import keyrings
from imports import import_of
from measure import TURNS, Bench, Failed, in_turn, megabytes, opened, ran, session, shown, table, times

MOST = 1.05
# commands whose second half needs the first, which growth.py times one after the other
IN_PAIRS = ("`import` of one key", "`delete` of that key")
# so many are counted in one run, for one of them is little beside the opening
COUNTED_EDITS = 100
# how much of its libraries a run has in memory differs by some hundred kilobytes from run to run
PEAKS, NOISE = 3, 1 << 19


class Work(NamedTuple):
    """What both programs do: its name, the seconds that it took of each, instructions if they can be counted, and bytes at the peak."""

    name: str
    seconds: tuple[float, float]
    counts: tuple[int, int] | None
    peaks: tuple[int, int]

    def over(self):
        """What takes the new program too much."""
        what, (old, new) = ("time", self.seconds) if self.counts is None else ("instructions", self.counts)
        found = [what] if new > MOST * old else []
        old, new = self.peaks
        return [*found, "memory"] if new > MOST * old + NOISE else found

    def cells(self):
        numbers = ("", "", "") if self.counts is None else (*(f"{count / 1e6:.1f}" for count in self.counts), ratio(self.counts))
        return (self.name, *map(shown, self.seconds), ratio(self.seconds), *numbers, *map(megabytes, self.peaks), ratio(self.peaks))


class Run(NamedTuple):
    """A run of one program: its words, the file that it is given, and the store of which it has a copy."""

    bench: Bench
    words: list[str]
    given: str | None
    store: str

    @contextlib.contextmanager
    def copied(self):
        with tempfile.TemporaryDirectory(dir=self.bench.folder) as folder:
            yield shutil.copytree(self.store, f"{folder}/store")

    def instructions(self):
        with self.copied() as where, open(self.given or os.devnull, "rb") as source:
            words = ["valgrind", "--tool=callgrind", "--callgrind-out-file=/dev/null", self.bench.program, *self.words]
            done = subprocess.run(words, stdin=source, capture_output=True, cwd=where, check=False)
        found = re.search(rb"Collected : (\d+)", done.stderr)
        if done.returncode or found is None:
            raise Failed(f"callgrind of {self.words} ended with {done.returncode}: {done.stderr[-200:]}")
        return int(found[1])

    def peak(self):
        """The least of several."""
        found = []
        for _ in range(PEAKS):
            with self.copied() as where:
                found.append(self.bench.peak(self.words, self.given, where))
        return min(found)


def ratio(pair):
    return f"{pair[1] / pair[0]:.3f}"


def empty_store(bench):
    return bench.store("nothing", (["export"], None))


def can_count(benches):
    """Whether valgrind is there and runs both programs."""
    if shutil.which("valgrind") is None:
        return False
    try:
        for bench in benches:
            Run(bench, ["export"], None, empty_store(bench)).instructions()
    except Failed as fault:
        print(f"\ninstructions: skipped: {fault}")
        return False
    return True


class Comparison:
    """Two programs with what both read, and the works so far."""

    def __init__(self, old, new, folder, keys, rounds):
        self.benches = [Bench(program, os.path.join(folder, name), keys) for name, program in (("old", old), ("new", new))]
        for bench in self.benches:
            os.mkdir(bench.folder)
        self.folder, self.keys, self.rounds, self.works = folder, keys, rounds, []
        self.counts = can_count(self.benches)

    def counted(self, runs, without=None, count=1):
        """The instructions of a run of each program, less those of another run, for each of so many commands."""
        if not self.counts:
            return None
        least = [run.instructions() for run in without] if without else [0, 0]
        return tuple((run.instructions() - other) // count for run, other in zip(runs, least))

    def add(self, name, seconds, runs, without=None, count=1):
        self.works.append(Work(name, tuple(seconds), self.counted(runs, without, count), tuple(run.peak() for run in runs)))

    def imports(self):
        for name, key in (("as gpg prints it", keyrings.gpg_key), ("the records that are kept alone", keyrings.plain_key)):
            listing = keyrings.written(os.path.join(self.folder, "listing"), key, self.keys)
            seconds = in_turn(*(lambda bench=bench: import_of(bench, listing) for bench in self.benches), rounds=self.rounds)
            self.add(f"`import`, {name}", seconds, [Run(bench, ["import"], listing, empty_store(bench)) for bench in self.benches])

    def openings(self, name, stores, query):
        pairs = list(zip(self.benches, stores))
        seconds = in_turn(*(lambda bench=bench, where=where: opened([bench.program], where) for bench, where in pairs), rounds=self.rounds)
        self.add(f"opening a session, {name}", seconds, [Run(bench, [], None, where) for bench, where in pairs])
        seconds = in_turn(*(lambda bench=bench, where=where: ran([bench.program, *query], where=where) for bench, where in pairs), rounds=self.rounds)
        self.add(f"a run of one query, {name}", seconds, [Run(bench, query, None, where) for bench, where in pairs])

    def commands(self, name, stores, commands):
        """Commands in an open session: lines that each go on for ever."""
        pairs = list(zip(self.benches, stores))
        without = [Run(bench, [], None, where) for bench, where in pairs]
        with contextlib.ExitStack() as stack:
            programs = [stack.enter_context(session([bench.program], shutil.copytree(where, where + "-open"))) for bench, where in pairs]
            for command, lines in commands.items():
                count = COUNTED_EDITS if command in growth.SMALL else 2
                given = os.path.join(self.folder, "given")
                with open(given, "w", encoding="utf-8") as file:
                    file.writelines(itertools.islice(lines, count))
                each = zip(programs, itertools.tee(lines))
                jobs = [lambda program=program, own=own, row=9 if command in growth.SMALL else 1: growth.taken(program, own, row) for program, own in each]
                self.add(f"{command}, {name}", in_turn(*jobs, rounds=self.rounds), [Run(bench, [], given, where) for bench, where in pairs], without, count)


def of_every_keyring() -> dict[str, Iterator[str]]:
    return {"`check`": itertools.repeat("check\n"), "`compact`": itertools.repeat("compact\n")}


def compared(comparison):
    keys = comparison.keys
    comparison.imports()
    made = [bases.moved(bench, growth.made_store(bench, keys), "made-base") for bench in comparison.benches]
    comparison.openings("made keys", made, ["list", growth.fingerprint(1)])
    edits = {name: lines for name, lines in growth.commands(keys).items() if name not in IN_PAIRS}
    comparison.commands("made keys", made, {**edits, **of_every_keyring()})
    listed = [bases.moved(bench, growth.listed_store(bench), "listed-base") for bench in comparison.benches]
    comparison.openings("keys as gpg prints them", listed, ["list", keyrings.fingerprint(1)])
    queries = {name: itertools.repeat(f"{name.strip('`')}\n") for name in ("`list`", "`sigs`")}
    comparison.commands("keys as gpg prints them", listed, {**queries, **of_every_keyring()})


def main():
    parser = argparse.ArgumentParser()
    parser.add_argument("old")
    parser.add_argument("new")
    parser.add_argument("--keys", type=int, default=100_000)
    parser.add_argument("--times", type=int, default=TURNS)
    asked = parser.parse_args()
    with tempfile.TemporaryDirectory(prefix="wot") as folder:
        comparison = Comparison(asked.old, asked.new, folder, asked.keys, asked.times)
        compared(comparison)
    columns = ("part", "old", "new", "ratio", "million instructions, old", "new", "ratio", "memory at the peak, old", "new", "ratio")
    table(f"Two programs on {asked.keys:,} keys, the least times of {asked.times}", columns, [work.cells() for work in comparison.works])
    over = [f"{work.name}: {what}" for work in comparison.works for what in work.over()]
    if over:
        print("\n" + "\n".join(f"more than {MOST} times: {line}" for line in over))
    sys.exit(1 if over else 0)


main()
