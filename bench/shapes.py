"""Imports of listings of every shape that somebody may send, as what a byte of them costs beside a byte of an ordinary one."""
import os
import shutil
from collections.abc import Callable, Iterable
from typing import NamedTuple

from measure import in_turn, megabytes, ran, session, shown, table, times

DATE, DEPTH, USERS, ROUNDS = 1600000000, 255, 1024, 5


def numbered(number):
    return number + 1


def falling(number):
    return 2**63 - number


def reversed_bits(number):
    return int(f"{number + 1:064b}"[::-1], 2)


def fingerprint(key_id):
    return f"{key_id ^ 0xFEDCBA98:024X}{key_id:016X}"


def head(key_id):
    return f"pub:-:255:22:{key_id:016X}:{DATE}:::-:::scSC:\nfpr:::::::::{fingerprint(key_id)}:\n"


def user(text):
    return f"uid:-::::{DATE}::::{text}:\n"


def certified(issuers):
    return "".join(f"sig:!:::{issuer:016X}:{DATE + place}:::::10x:\n" for place, issuer in enumerate(issuers))


def earlier(number):
    """Four earlier keys, the first ones more often."""
    return [(number * 7919 + place * 104729) % (number // 3 + 1) for place in range(4)] if number else []


def first(number):
    return [0] if number else []


def before(number):
    return [number - 1] if number else []


def before_in_its_chain(number):
    return [number - 1] if number % DEPTH else []


def keys(count, issuers, key_id=numbered):
    """Keys with one user ID, certified by these keys."""
    for number in range(count):
        yield head(key_id(number)) + user(f"Key {number} <k{number}@example.org>") + certified(map(key_id, issuers(number)))


def all_certify_one(count):
    """Each key is certified by the first, and the last by each."""
    yield from keys(count, first)
    yield head(count + 1) + user("Last") + certified(range(1, count + 1))


def of_many_users(count):
    for number in range(max(1, count // USERS)):
        yield head(number + 1) + "".join(user(f"Key {number} <k{number}u{place}@example.org>") + certified([1] if number else []) for place in range(USERS))


def passed(count):
    """A key, and records of every kind that is passed."""
    yield head(1) + user("Key") + "sub:-:255:18:000000000000000F:1600000000::::::e:::::cv25519::\n"
    for number in range(count):
        yield f"fpr:::::::::{number:040X}:\nsig:!::22:{number:016X}:{DATE}:::::18x:\nsig:?::22:{number:016X}:{DATE}:::::10x:\nspk:1:{number}:x:\ntfs:1:x:\n\n"


class Shape(NamedTuple):
    """The blocks of a listing of so many keys; the key IDs, which of them are ultimately trusted, and the greatest depth."""

    blocks: Callable[[int], Iterable[str]]
    key_id: Callable[[int], int] = numbered
    is_root: Callable[[int], bool] = lambda number: number == 0
    depth: int = 5


SHAPES = {
    "ordinary": Shape(lambda count: keys(count, earlier)),
    "ordinary, and key IDs that fall": Shape(lambda count: keys(count, earlier, falling), falling),
    "ordinary, and key IDs with their bits reversed": Shape(lambda count: keys(count, earlier, reversed_bits), reversed_bits),
    "one chain of all keys": Shape(lambda count: keys(count, before), depth=DEPTH),
    "chains of 255 levels": Shape(lambda count: keys(count, before_in_its_chain), is_root=lambda number: number % DEPTH == 0, depth=DEPTH),
    "all certify one key": Shape(all_certify_one),
    "a key with certifications by as many issuers who aren't there": Shape(lambda count: [head(1) + user("Key") + certified(range(2, count + 2))]),
    "keys with 1,024 user IDs": Shape(of_many_users),
    "twice the keys, certified by one": Shape(lambda count: keys(2 * count, first)),
    "records that are passed": Shape(passed),
}


def written(path, pieces):
    with open(path, "w", encoding="utf-8") as file:
        file.writelines(pieces)
    return path


def prepared(bench, shape, count):
    """What makes the store of a shape: options, and ownertrust that lets all keys introduce, of as many entries for each shape."""
    entries = (f"{fingerprint(shape.key_id(number))}:{6 if shape.is_root(number) else 5}:\n" for number in range(count))
    trusts = written(bench.path("trusts"), entries)
    return [(["options", "pgp", "1", "3", str(shape.depth), "2"], None), (["ownertrust"], trusts)]


def figures(bench, name):
    """Of a shape: the size of its listing, the least seconds of its import into a store that lets all keys introduce, and the most memory; and
    the seconds of the ordinary one, in turn with it."""
    jobs, listings = [], []
    for shape in (SHAPES["ordinary"], SHAPES[name]):
        listing = written(bench.path(f"listing-{len(listings)}"), shape.blocks(bench.keys))
        made = bench.store(f"shape-{len(listings)}", *prepared(bench, shape, bench.keys))
        jobs.append(lambda listing=listing, made=made: ran([bench.program, "import"], listing, copied(bench, made)))
        listings.append((listing, made))
    ordinary, took = in_turn(*jobs, rounds=ROUNDS)
    listing, made = listings[-1]
    peak = bench.peak(["import"], listing, copied(bench, made))
    return os.path.getsize(listing), took, peak, ordinary / os.path.getsize(listings[0][0])


def copied(bench, made):
    """A copy of a store, to import into."""
    where = bench.path("shape")
    shutil.rmtree(where, ignore_errors=True)
    return shutil.copytree(made, where)


def beside(bench, name):
    """Of a shape: the size of its listing, and the least seconds of its import in an open session of a store with as many made keys."""
    listing = bench.path("listing-beside")
    with open(written(listing, SHAPES[name].blocks(bench.keys)), encoding="utf-8") as file:
        given = f"import\n{file.read()}.\n"
    made = bench.store("others", (["sample", "7", str(bench.keys)], None), *prepared(bench, SHAPES[name], bench.keys))

    def imported():
        with session([bench.program], copied(bench, made)) as program:
            return program.accept(given)

    return os.path.getsize(listing), in_turn(imported, rounds=ROUNDS)[0]


def part(bench):
    """Imports of each shape, and of a chain beside other keys."""
    rows = []
    for name in SHAPES:
        size, took, peak, ordinary = figures(bench, name)
        rows.append((name, megabytes(size), shown(took), f"{took / size * 1e9:.1f} ns", times(took / size, ordinary), times(peak, size)))
    columns = ("listing", "size", "import", "a byte", "times the ordinary byte", "memory, times the listing")
    table(f"Imports of listings of {bench.keys:,} keys, of which all may introduce", columns, rows)
    rows = []
    for name in ("ordinary", "chains of 255 levels"):
        size, took = beside(bench, name)
        rows.append((name, megabytes(size), shown(took), f"{took / size * 1e9:.1f} ns", took / size))
    columns = ("listing", "size", "import", "a byte", "times the ordinary byte")
    table(f"The same in an open session of a store with {bench.keys:,} made keys", columns, [(*row[:4], times(row[4], rows[0][4])) for row in rows])
