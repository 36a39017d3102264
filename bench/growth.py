"""Commands on the keys that `sample` makes, at three sizes, beside a pass over the same keys."""
import itertools
import os
import tempfile

import keyrings
from measure import Failed, in_turn, megabytes, middle, ran, session, shown, spread, table, times, turns

SIZES = (1_000, 10_000, 100_000)
SEED, DEEPEST = 7, 4
# commands that touch one key: each is timed as the middle of several in a row
SMALL = ("`trust` of a key that certifies nobody", "`import` of one key", "`delete` of that key")


def made_store(bench, count):
    """A store of made keys, by `sample` where the program knows it, else by the import of the same keys."""
    if bench.knows("sample"):
        return bench.store("made", (["sample", str(SEED), str(count)], None))
    steps = []
    for command, what in (("ownertrust", "trusts"), ("import", "listing")):
        path = bench.path(what)
        ran([bench.floor("made"), str(SEED), str(count), what], told=path)
        steps.append(([command], path))
    return bench.store("made", *steps)


def key_id(number):
    return f"{(SEED << 32) + number:016X}"


def fingerprint(number):
    return f"{SEED:016X}00000000{key_id(number)}"


def key_more(number, issuers):
    """The import of one key more."""
    head = f"import\npub:-:255:22:{key_id(number)}:1600000000:::-:::scSC:\nfpr:::::::::{fingerprint(number)}:\n"
    certs = "".join(f"sig:!:::{key_id(issuer)}:1600000000:::::10x:\n" for issuer in issuers)
    return f"{head}uid:-::::1600000000::::Key {number}:\n{certs}.\n"


def commands(count):
    """The commands that are timed on so many made keys; each is given in turn, and an edit changes something each time."""
    last, second = fingerprint(count - 1), fingerprint(1)
    return {
        "`list`": itertools.repeat("list\n"),
        "`sigs`": itertools.repeat("sigs\n"),
        "`trust` of a key that certifies nobody": itertools.cycle([f"trust {last} m\n", f"trust {last} n\n"]),
        "`trust` of a key that certifies many": itertools.cycle([f"trust {second} m\n", f"trust {second} f\n"]),
        "`date`, one key in fifty expires or is back": itertools.cycle(["date 1750000000\n", "date 1650000000\n"]),
        "`import` of one key": (key_more(number, (0, 1, 2, count // 3)) for number in itertools.count(count)),
        "`delete` of that key": (f"delete {fingerprint(number)}\n" for number in itertools.count(count)),
        "`options`": itertools.cycle(["options pgp 1 3 5 1\n", "options pgp 1 3 5 2\n"]),
    }


def taken(program, lines, count):
    """The middle of the seconds that so many of these commands take, one after the other: the first one finds what the last command left in the processor's caches."""
    return sorted(program.accept(next(lines)) for _ in range(count))[count // 2]


def deepest(program, count):
    """The level and the number of a key of the highest level that explanations show."""
    found = (0, key_id(0))
    for number in range(count - 1, 0, -(count // 200 + 1)):
        _, reply = program.ask(f"why {fingerprint(number)} 1\n")
        rows = [line.split(":") for line in reply.decode().splitlines() if line.startswith("row:")]
        found = max([found, *((int(fields[2]), fields[1]) for fields in rows)])
        if found[0] == DEEPEST:
            break
    return found[0], int(found[1], 16) - (SEED << 32)


def figures(bench, count):
    """The least seconds by name, the level of the key that was explained, and bytes of memory and of the listing."""
    where, listing, cut = made_store(bench, count), bench.path("sigs"), bench.floor("cut")
    ran([bench.program, "sigs"], where=where, told=listing)
    with session([bench.program], where) as program:
        level, number = deepest(program, count)
        given = {**commands(count), "`why` of a key as deep as there is": itertools.repeat(f"why {fingerprint(number)} 1\n")}
        jobs = [lambda name=name, lines=lines: taken(program, lines, 9 if name in SMALL else 1) for name, lines in given.items()]
        floor, *seconds = in_turn(lambda: ran([cut], listing), *jobs)
        opening = program.opening
        return {"a cut of its `sigs` alone": floor, "opening": opening, **dict(zip(given, seconds))}, level, program.peak(), os.path.getsize(listing)


def row(name, numbers, say, floor=None):
    """A row with the growth from size to size, and how much the last is beside a floor."""
    growth = [times(after, before) for before, after in zip(numbers, numbers[1:])]
    return (name, *map(say, numbers), *growth, times(numbers[-1], floor) if floor else "")


def part(bench):
    """What commands take on made keys of three sizes."""
    found = [figures(bench, count) for count in SIZES]
    seconds, levels, peaks, sizes = zip(*found)
    floor = next(iter(seconds[-1].values()))
    rows = [row(name, [column[name] for column in seconds], shown, floor) for name in seconds[0]]
    rows += [row("memory at the peak", peaks, megabytes), row("size of `sigs`", sizes, megabytes)]
    growth = [f"growth to {count:,}" for count in SIZES[1:]]
    table(f"Commands in a session on made keys; the explained keys have the levels {levels}", ("", *(f"{c:,} keys" for c in SIZES), *growth, "times the cut"), rows)


def part_sample(bench):
    """Making keys, beside a program in C that makes the same."""
    if not bench.knows("sample"):
        print("\nsample: skipped: no command sample")
        return
    with tempfile.TemporaryDirectory(dir="/dev/shm" if os.path.isdir("/dev/shm") else bench.folder) as where:
        words = [str(SEED), str(SIZES[-1])]
        stores = (tempfile.mkdtemp(dir=where) for _ in itertools.count())
        floor, took = in_turn(lambda: ran([bench.floor("made"), *words]), lambda: ran([bench.program, "sample", *words], where=next(stores)))
        peak = bench.peak(["sample", *words], where=next(stores))
    cells = (shown(floor), shown(took), times(took, floor), megabytes(peak))
    table(f"`sample` of {SIZES[-1]:,} keys, its store in memory", ("made in C alone", "sample", "times that", "memory at the peak"), [cells])


def printing(program, floor, command):
    """A row: what the command takes, beside a program in C that writes the same bytes."""
    (_, told), (_, same) = (held.ask(f"{command}\n") for held in (program, floor))
    if told != same:
        raise Failed(f"the program and print.c print different bytes at {command}")
    least, took = turns(lambda: floor.accept(f"{command}\n"), lambda: program.accept(f"{command}\n"))
    return f"`{command}`", megabytes(len(told)), shown(middle(least)), shown(middle(took)), spread(took, least)


def listed_store(bench):
    """A store of the keys that `import` reads, one in a hundred with ownertrust."""
    listing = keyrings.written(bench.path("listed-keys"), keyrings.gpg_key, bench.keys)
    trusts = keyrings.written_ownertrust(bench.path("listed-trusts"), bench.keys)
    return bench.store("listed", (["ownertrust"], trusts), (["import"], listing))


def part_list(bench):
    """Printing keys in an open session, beside a program in C that holds them in structs and prints the same."""
    rows = []
    for name, where in (("made keys", made_store(bench, bench.keys)), ("keys as gpg prints them", listed_store(bench))):
        listing = bench.path("sigs")
        ran([bench.program, "sigs"], where=where, told=listing)
        with session([bench.program], where) as program, session([bench.floor("print"), listing], where) as floor:
            rows += [(name, *printing(program, floor, command)) for command in ("list", "sigs")]
    table(f"Printing {bench.keys:,} keys in an open session", ("", "", "size", "printed in C alone", "printed", "times that"), rows)
