"""Edits of a small store, beside the calls of the disk that they make."""
import collections
import os
import struct
import tempfile

from keyrings import fingerprint
from measure import in_turn, megabytes, ran, session, shown, table, times

EDITS, RECORDS = 500, 100_000


def middle(numbers):
    return sorted(numbers)[len(numbers) // 2]


def edits_in(bench, folder):
    """The middle times of one edit and of its writes and syncs alone, made in turn."""
    took = collections.defaultdict(list)
    with tempfile.TemporaryDirectory(dir=folder) as where:
        os.mkdir(f"{where}/store")
        with session([bench.program], f"{where}/store") as program, session([bench.floor("edits"), "bare"], where) as floor:
            for n in range(EDITS):
                line = f"trust {fingerprint(n % 50)} {'fmqn'[n % 4]}\n"
                for each in (program, floor) if n % 2 else (floor, program):
                    took[each].append(each.accept(line))
            return middle(took[program]), middle(took[floor])


def part(bench):
    """An edit of a small store beside its four calls of the disk, and a journal of many edits that is opened again."""
    rows = []
    for name, folder in (("on the disk", bench.folder), ("in memory, where a sync is free", "/dev/shm")):
        if os.path.isdir(folder):
            edit, bare = edits_in(bench, folder)
            rows.append((name, shown(bare), shown(edit), f"{(edit - bare) * 1e6:.0f} µs"))
    table(f"One edit of a store of 50 fingerprints, the middle of {EDITS}", ("store", "its writes and syncs alone", "trust", "difference"), rows)
    where, empty = bench.store("journal", (["export"], None)), bench.store("empty")
    add_records(os.path.join(where, "wot.0"))
    hops = bench.floor("hops")
    floor, opened, nothing = in_turn(
        lambda: ran([hops, "wot.0"], where=where),
        lambda: ran([bench.program, "export"], where=where),
        lambda: ran([bench.program, "export"], where=empty),
    )
    peak = bench.peak(["export"], where=where)
    row = (shown(floor), shown(opened), shown(nothing), times(opened, floor), megabytes(peak))
    columns = ("hops over its records alone", "opening and export", "the same of an empty store", "times the hops", "memory at the peak")
    table(f"A journal of {RECORDS:,} edits", columns, [row])


def add_records(path):
    """Adds as many edits of ownertrust to a new store as docs/FORMATS.md says, in place of the closed gate that it ends with."""
    with open(path, "r+b") as file:
        file.seek(-1, os.SEEK_END)
        for number in range(RECORDS):
            file.write(b"\xa5" + struct.pack(">IBB", 23, 3, 20) + bytes.fromhex(fingerprint(number % 50)) + bytes([2 + number % 4]))
        file.write(b"\0")
