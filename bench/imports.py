"""Import of a whole keyring, beside cutting the same file into its fields."""
import os

import keyrings
from measure import megabytes, middle, opened, ran, session, shown, spread, table, turns

KEYS = 100_000


def import_of(bench, listing):
    """Seconds of an import into an empty store."""
    return ran([bench.program, "import"], listing, bench.store("importing"))


def import_in_session(bench, listing):
    """Seconds of the same in an open session, over pipes."""
    with open(listing, encoding="utf-8") as file:
        block = f"import\n{file.read()}.\n"
    with session([bench.program], bench.store("importing")) as program:
        return program.accept(block)


def less(seconds, others):
    """Turn by turn, without what takes as long as another thing."""
    return [one - other for one, other in zip(seconds, others)]


def part(bench):
    """Reading, checking, writing and counting a whole keyring, beside cutting the same file into its fields."""
    cut, rows, openings = bench.floor("cut"), [], []
    for name, key in (("as gpg prints it", keyrings.gpg_key), ("the records that are kept alone", keyrings.plain_key)):
        listing = keyrings.written(bench.path("listing"), key, KEYS)
        recorded = bench.store("recorded", (["import"], listing))
        jobs = (
            lambda path=listing: ran([cut], path),
            lambda path=listing: import_of(bench, path),
            lambda path=listing: import_in_session(bench, path),
            lambda where=recorded: opened([bench.program], where),
            lambda where=recorded: ran([bench.program, "list", keyrings.fingerprint(1)], where=where),
        )
        floor, took, within, again, asked = turns(*jobs)
        size, peak = os.path.getsize(listing), bench.peak(["import"], listing, bench.store("importing"))
        times_cut = spread(took, floor)
        rows.append((name, megabytes(size), *map(shown, map(middle, (floor, took))), times_cut, megabytes(peak), f"{peak / size:.2f}"))
        openings.append((name, *opening_of(again, less(within, floor)), *opening_of(asked, less(took, floor))))
    columns = ("listing", "size", "cut alone", "import", "times the cut", "memory at the peak", "times the listing")
    table(f"Import of {KEYS:,} keys with four certifications each", columns, rows)
    columns = ("listing", "opening a session", "an import in a session, less the cut", "times that", "a run of one query", "a run of one import, less the cut", "times that")
    table("Opening the record of such an import", columns, openings)


def opening_of(seconds, others):
    """What an opening takes, beside another thing."""
    return shown(middle(seconds)), shown(middle(others)), spread(seconds, others)
