#!/usr/bin/env python3
"""Compares the keys that `sample` makes, and their ownertrust, with those that another program makes, and its replies."""
import sys

from reference import made
from reference.program import folder, run

SEED, COUNT = 7, 300
LETTERS = "-?qnmfu"
USAGES = {
    "sample 7 1\n": "tally:1:1:0:0:0:0:0:0:\nok keys 1\n",
    "sample 7 3\n": "tally:3:1:2:0:0:0:0:0:\nok keys 3\n",
    "sample 7 0\n": "err bad-argument 2\n",
    "sample 7 100001\n": "err bad-argument 2\n",
    "sample 7\n": "err bad-argument 2\n",
    "sample 18446744073709551616 1\n": "err bad-argument 1\n",
    "sample x 1\n": "err bad-argument 1\n",
    "sample 7 1 1\n": "err bad-argument 3\n",
}


def wanted_keys(seed, count):
    owners = [LETTERS[made.entry(seed, number)] for number in range(count)]
    return [line for number in range(count) for line in made.lines(seed, number, owners[number])]


def keys_and_entries(seed, count):
    """What differs in the keys and the ownertrust of a store with made keys, and in the tally."""
    with folder() as store:
        told = run(f"sample {seed} {count}\n", where=store).stdout.decode().splitlines()
        sigs = run("sigs\n", where=store).stdout.decode()
        export = run("export\n", where=store).stdout.decode()
    shown = [line[4] for line in sigs.splitlines() if line.startswith("uid:")]
    tally = [str(shown.count(letter)) for letter in "ufmq-re"]
    yield "reply", told[1:], [f"ok keys {count}"]
    yield "tally", told[0].split(":")[2:], [*tally, ""]
    expiry = "1700000000" if count >= 50 else "0"
    yield "keys", made.without_letters(sigs), [f"tru::1:0:{expiry}:3:1:5\n", *wanted_keys(seed, count), "ok\n"]
    entries = [f"{made.fingerprint(seed, n)}:{made.entry(seed, n)}:\n" for n in range(count) if made.entry(seed, n)]
    yield "entries", export.splitlines(keepends=True), [*entries, "ok\n"]


def flags():
    """An entry that is made replaces what stood there, its flag too; a key without one keeps both."""
    with_entry, without = (made.fingerprint(SEED, next(n for n in range(1, 9) if bool(made.entry(SEED, n)) == has)) for has in (True, False))
    given = f"trust {with_entry} n\ndisable {with_entry}\ntrust {without} n\ndisable {without}\nsample {SEED} 9\nexport\n"
    lines = run(given).stdout.decode().splitlines()
    numbers = dict(line.split(":")[:2] for line in lines if line.startswith("0"))
    number = next(made.entry(SEED, n) for n in range(1, 9) if made.fingerprint(SEED, n) == with_entry)
    yield "flags", (numbers.get(with_entry), numbers.get(without)), (str(number), str(128 + 3))


def checks():
    for seed, count in ((SEED, COUNT), (2**64 - 1, 120), (0, 1)):
        for what, told, wanted in keys_and_entries(seed, count):
            yield f"{what} of {seed} {count}", told, wanted
    yield from flags()
    for given, wanted in USAGES.items():
        yield given.strip(), run(given).stdout.decode(), wanted


if run("sample 7 1\n").stdout == b"err unknown-command\n":
    print("sample: skipped: no command sample")
    sys.exit(0)
done = 0
for name, told, wanted in checks():
    if told != wanted:
        pair = next(((a, b) for a, b in zip(told, wanted) if a != b), (told[-2:], wanted[-2:]))
        sys.exit(f"sample: {name}: {pair[0]!r} in place of {pair[1]!r}")
    done += 1
print(f"sample: {done} ok")
