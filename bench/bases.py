"""What the base of a store costs: its pages and their seals, moving to the other side, and opening; and counting by several workers."""
import os
import shutil
import tempfile

import keyrings
from growth import SEED, fingerprint, listed_store
from measure import in_turn, megabytes, middle, opened, output, ran, session, shown, spread, table, times, turns

WORKERS = (1, 4)


def imported(bench, name, count):
    """A store with the record of an import of made keys, and one of their ownertrust."""
    steps = []
    for command, what in (("ownertrust", "trusts"), ("import", "listing")):
        path = bench.path(f"{name}-{what}")
        ran([bench.floor("made"), str(SEED), str(count), what], told=path)
        steps.append(([command], path))
    return bench.store(name, *steps)


def moved(bench, where, name):
    """A copy of a store that was moved to its other side, which is the second."""
    there = bench.path(name)
    shutil.rmtree(there, ignore_errors=True)
    shutil.copytree(where, there)
    ran([bench.program, "compact"], where=there)
    return there


def printed(words):
    """The seconds of what a floor prints in nanoseconds."""
    return int(output(words)) / 1e9


def part_pages(bench):
    """The seals of a base beside reading and writing its pages, and what an opening takes."""
    where = moved(bench, imported(bench, "imported", bench.keys), "moved")
    empty, pages, side, new = bench.store("empty", (["export"], None)), bench.floor("pages"), os.path.join(where, "wot.1"), bench.path("new")
    jobs = {
        "the sums of the seals alone, in C": lambda: printed([pages, "sums", side]),
        "reading the pages alone": lambda: ran([pages, "copy", side]),
        "reading and sums": lambda: ran([pages, "read", side]),
        "writing and syncing the pages alone": lambda: printed([pages, "put", side, new]),
        "writing, syncing and sums": lambda: printed([pages, "write", side, new]),
        "the opening": lambda: opened([bench.program], where),
        "the opening of an empty store": lambda: opened([bench.program], empty),
    }
    seconds = dict(zip(jobs, in_turn(*jobs.values())))
    sums = seconds["the sums of the seals alone, in C"]
    rows = [(name, shown(took), times(took, sums)) for name, took in seconds.items()]
    table(f"The pages of a base of {bench.keys:,} made keys, {megabytes(os.path.getsize(side))}", ("", "seconds", "times the sums"), rows)


def part_compact(bench):
    """Moving a store to its other side, beside a program in C that writes the same bytes in the same calls, with the same sums."""
    where, pages, rows = moved(bench, imported(bench, "imported", bench.keys), "moved"), bench.floor("pages"), []
    for name, folder in (("on the disk", bench.folder), ("in memory, where a sync is free", "/dev/shm")):
        if not os.path.isdir(folder):
            continue
        with tempfile.TemporaryDirectory(dir=folder) as there:
            shutil.copytree(where, f"{there}/store")
            with session([bench.program], f"{there}/store") as program:
                # from here on both sides are there, and written over
                program.accept("compact\n")
                words = [pages, "write", os.path.join(where, "wot.1"), f"{there}/new"]
                printed(words)
                floor, took = in_turn(lambda words=words: printed(words), lambda program=program: program.accept("compact\n"))
                peak = program.peak()
        rows.append((name, shown(floor), shown(took), times(took, floor), megabytes(peak)))
    columns = ("store", "the same bytes, calls and sums in C", "`compact`", "times that", "memory at the peak")
    table(f"`compact` of {bench.keys:,} made keys, {megabytes(os.path.getsize(os.path.join(where, 'wot.1')))}", columns, rows)


def opening_rows(bench, name, record, query):
    """Rows: opening what `compact` left in a session, and in a run of one query, beside opening the same state from its records, and beside a C program that reads the file and makes its sums."""
    base = moved(bench, record, "moved")
    words = [bench.floor("pages"), "read", os.path.join(base, "wot.1")]
    programs = [[bench.program, "--workers", str(count)] for count in WORKERS]
    jobs = [lambda words=words, where=where: opened(words, where) for where in (record, base) for words in programs]
    jobs += [lambda words=words: ran([*words, *query], where=base) for words in programs]
    sums, *seconds = turns(lambda: ran(words), *jobs)
    by_record, by_base, by_query = (seconds[at * len(WORKERS):][:len(WORKERS)] for at in range(3))
    return [
        (name, "reading the base and making its sums, in C", shown(middle(sums)), "", ""),
        (name, "a session, from the records", *map(shown, map(middle, by_record)), spread(by_record[-1], by_record[0])),
        (name, "a session, from the base that `compact` left", *map(shown, map(middle, by_base)), spread(by_base[-1], by_base[0])),
        (name, "a run of one query, from that base", *map(shown, map(middle, by_query)), spread(by_query[-1], by_query[0])),
        (name, "the session, times the sums", *(spread(one, sums) for one in by_base), ""),
        (name, "the run of one query, times the sums", *(spread(one, sums) for one in by_query), ""),
        (name, "from the base beside from the records", *(spread(one, other) for one, other in zip(by_base, by_record)), ""),
    ]


def part_opening(bench):
    """Opening a store of made keys, and of keys as gpg prints them, from its records and from its base."""
    rows = opening_rows(bench, "made keys", imported(bench, "imported", bench.keys), ["list", fingerprint(1)])
    rows += opening_rows(bench, "keys as gpg prints them", listed_store(bench), ["list", keyrings.fingerprint(1)])
    columns = ("", "", *(f"{count} worker{'s' * (count > 1)}" for count in WORKERS), f"{WORKERS[-1]} beside {WORKERS[0]}")
    table(f"Opening a store of {bench.keys:,} keys", columns, rows)


def part_check(bench):
    """Counting all introducers anew in an open session, by several workers."""
    where = moved(bench, imported(bench, "imported", bench.keys), "moved")
    listing, cut = bench.path("sigs"), bench.floor("cut")
    ran([bench.program, "sigs"], where=where, told=listing)
    one, more = (session([bench.program, "--workers", str(count)], where) for count in WORKERS)
    with one as program:
        floor, first = in_turn(lambda: ran([cut], listing), lambda: program.accept("check\n"))
    with more as program:
        last = min(program.accept("check\n") for _ in range(3))
    row = (shown(floor), shown(first), times(first, floor), shown(last), times(last, first))
    columns = ("a cut of its `sigs` alone", "1 worker", "times the cut", f"{WORKERS[-1]} workers", f"{WORKERS[-1]} beside 1")
    table(f"`check` of {bench.keys:,} made keys", columns, [row])


def part_one_key(bench):
    """`list` of one key in a small keyring and in a large one, in an open session and as a run of its own, which opens the store."""
    columns, sessions, runs = (100, bench.keys), [], []
    for count in columns:
        where = moved(bench, imported(bench, "imported", count), "moved")
        with session([bench.program], where) as program:
            words = ["list", fingerprint(count // 2)]
            sessions.append(min(program.accept(" ".join(words) + "\n") for _ in range(20)))
        runs += in_turn(lambda where=where, words=words: ran([bench.program, *words], where=where), rounds=5)
    rows = [
        ("in an open session", *map(shown, sessions), times(sessions[1], sessions[0])),
        ("as a run of its own, which opens the store", *map(shown, runs), times(runs[1], runs[0])),
    ]
    table("`list` of one key", ("", *(f"{count:,} keys" for count in columns), "growth"), rows)
