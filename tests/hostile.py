#!/usr/bin/env python3
"""Changes real listings and ownertrust texts at random, by fields, records, blocks, their order, lengths and bytes, and compares what the built
program answers with a second reading of the formats and the rules: the reply, then the state as it is printed, tallied, and printed again by a
run that opens what `compact` left, whose bytes are the ones that the formats give.

hostile.py PROGRAM [--time SECONDS] [--seed NUMBER] [--case NUMBER]: a case hangs on the seed and on its own number alone.
A run may hold a gigabyte of memory, and has to end within a minute.
"""
import argparse
import itertools
import pathlib
import random
import re
import resource
import subprocess
import sys
import tempfile
import time
from concurrent.futures import ThreadPoolExecutor

from reference import keyring, listing, ownertrust, store
from reference.keyring import OWNER_LETTERS, Options
from reference.program import REAL, by, fingerprint, folder, key, run, short

MEMORY = 2**30
EXAMPLES = pathlib.Path(__file__).resolve().parent.parent / "examples"
DOMAIN = "<[^>]+[@.]example\\x5c.org>$"
# each kind of record and of value that is read
RICH = (
    key("A", expires=5000)
    + key("B", by("A", trusts="2 120", scope=DOMAIN, named=fingerprint("A")), by("C", kind="30x", record="rev"), text="B <b@example.org>")
    + key("C", by("B", made=3000, trusts="1 60"), by("A", made=2000, expires=4000), by("A", made="20010203T040506", kind="12l"), text="C <c@my.Example.org>")
    + "uat:r::::1000:2000:1F1F::1 3201:\n" + by("A", named=fingerprint("A")) + by("B", kind="11x", named=fingerprint("A")) + by("B", named=fingerprint("D"))
    + "sub:u:255:18:00000000000000E1:1000:\nfpr:::::::::" + fingerprint("E") + ":\n" + by("A")
    + f"pub:-:255:22:00000000000000DD:1000:::-:::scSC:\nfpr:::::::::00000000000000DD{'0' * 48}:\nuid:-::::1000::::Col\\x3aon \\n \\\\:\n" + by("B") + by("C")
    + "sec:u:255:22:00000000000000EE:1000:\nuid:-::::1000::::E:\n"
)
KINDS = [b"pub", b"fpr", b"uid", b"uat", b"sig", b"rev", b"sub", b"ssb", b"sec", b"crt", b"crs", b"tru", b"rvk", b"grp", b"", b"pu", b"PUB"]
SIGNATURE = [2, 5, 6, 7, 8, 8, 9, 9, 9, 11, 13, 13]
READ = {b"pub": [2, 3, 4, 5, 6, 7, 12], b"fpr": [10], b"uid": [2, 6, 7, 8, 10], b"uat": [2, 6, 7, 8, 10], b"sig": SIGNATURE, b"rev": SIGNATURE}
IDS = [b"00000000000000" + name * 2 for name in (b"A", b"B", b"C", b"D", b"a")]
VALUES = [
    *b" - r r- ! !3 ? 0 00 1 255 256 4294967295 4294967296 +1 -1 128 132 134 06 2 3 4 5 6 0128".split(b" "), b" 1", b"1 ", b"0" * 5000 + b"7", b"9" * 5000,
    *b"19700101T000000 19691231T235959 21060207T062815 21060207T062816 20000229T235959 21000229T000000".split(),
    *b"20010203T040560 2001020T0304050 20010203t040506".split(),
    *b"10 10x 10l 13x 11l 12x 1 30x 30 18x 1Fx 3".split(),
    *(b"1 60", b"1 120", b"255 255", b"256 1", b"1 256", b"1  60", b"1 60 1", b" ", b"0 0", b"007 0060"),
    *IDS, *(b"0" * 24 + one for one in IDS), b"00000000000000D" * 4 + b"0000", b"0" * 39, b"G" * 40, b"0" * 16, b"F" * 16,
    *(b"\\", b"\\x", b"\\x0", b"\\xg1", b"\\x3a", b"\\n\\r\\t\\f\\v\\b\\0\\\\", b"\\N"),
    *(b"a@example.org", b"N <a@example.org>", b"N <a@x.EXAMPLE.org>", b"N <a>@example.org>", b"<@example.org>"),
    *(DOMAIN.encode(), b"<[^>]+[@.]>$", b"<[^>]+[@.]example.org>$", b"<[^>]+[@.]" + b"a" * 243 + b">$", b"<[^>]+[@.]" + b"a" * 244 + b">$"),
    *(b"(a|example)", b"^A", b"x**", b"[^@]+@[a-e]x", b"0" * 48 + b"00000000000000AA", b"0" * 41),
    *(b".*", b"scESCD", b"e\xc3\xa9D1", b"\xff\x00\x01", b"x" * 300),
]


def real_listings():
    """The blocks of the worked sessions."""
    for given in sorted(EXAMPLES.glob("*/input")):
        yield from re.findall(rb"^import\n(.*?)^\.$", given.read_bytes(), re.M | re.S)


OWNERTRUST = b"# List of assigned trustvalues\n\n" + b"".join(b"%s:%d:\n" % (b"0" * 24 + one, n) for n, one in zip((2, 3, 4, 134, 6), IDS)) + b"0" * 64 + b":132:\n"
LISTINGS = [REAL.encode(), RICH.encode(), RICH.encode(), *real_listings()]


def change_field(chance, lines, at):
    fields = lines[at].split(b":")
    place = chance.randrange(len(fields))
    other = chance.choice(lines).split(b":")
    fields[place] = chance.choice([chance.choice(VALUES), chance.choice(other), other[place] if place < len(other) else b""])
    lines[at] = b":".join(fields)


def change_read_field(chance, lines, at):
    """Changes a field that is read, in a record of that kind near this place."""
    at = next((n for n in range(at, len(lines)) if lines[n][:3] in READ), at)
    fields = lines[at].split(b":")
    place = chance.choice(READ.get(lines[at][:3], [1, 2, 2]))
    fields += [b""] * (place - len(fields))
    fields[place - 1] = chance.choice(VALUES)
    lines[at] = b":".join(fields)


def change_number_of_fields(chance, lines, at):
    fields = lines[at].split(b":")
    place = chance.randrange(len(fields) + 1)
    change = chance.randrange(3)
    if change == 0:
        del fields[place:]
    elif change == 1:
        fields.insert(place, chance.choice(VALUES))
    else:
        del fields[place:place + 1]
    lines[at] = b":".join(fields)


def change_kind(chance, lines, at):
    lines[at] = b":".join([chance.choice(KINDS), *lines[at].split(b":")[1:]])


def change_order(chance, lines, at):
    line = lines.pop(at)
    lines.insert(chance.randrange(len(lines) + 1), line)


def repeat(chance, lines, at):
    size = chance.choice([1, 1, 3, len(lines)])
    lines[at:at] = lines[at:at + size] * chance.choice([1, 1, 2, 40])


def leave_out(chance, lines, at):
    del lines[at:at + chance.choice([1, 1, 1, 3])]


def blocks(lines):
    """The lines before the first key, and those of each key."""
    found = [[]]
    for line in lines:
        if line.startswith(b"pub:"):
            found.append([])
        found[-1].append(line)
    return found


def change_blocks(chance, lines, _):
    """Puts keys into another order, leaves one out, or takes some of another text."""
    own, other = blocks(lines), blocks(chance.choice(LISTINGS).split(b"\n"))
    change = chance.randrange(3)
    if change == 0:
        chance.shuffle(own)
    elif change == 1:
        del own[chance.randrange(len(own))]
    else:
        place = chance.randrange(len(own) + 1)
        own[place:place + chance.choice([0, 1])] = chance.sample(other, chance.choice([1, 1, len(other)]))
    lines[:] = [line for block in own for line in block]


def make_long(chance, lines, at):
    lines[at] += chance.choice([b":", b"x", b"\\x3a", b"\r"]) * chance.choice([1, 10, 300, listing.LINE - len(lines[at]), listing.LINE - len(lines[at]) + 1])


def cut(chance, lines, at):
    lines[at] = lines[at][:chance.randrange(len(lines[at]) + 1)]
    if chance.random() < 0.2:
        del lines[at + 1:]


def change_bytes(chance, lines, at):
    place = chance.randrange(len(lines[at]) + 1)
    put = bytes(chance.choice([chance.randrange(256), 0x3A, 0x5C, 0x0A, 0x0D, 0x00]) for _ in range(chance.choice([0, 1, 1, 2])))
    lines[at:at + 1] = (lines[at][:place] + put + lines[at][place + chance.choice([0, 1]):]).split(b"\n")


CHANGES = [
    *[change_field] * 3, *[change_read_field] * 5, *[change_bytes] * 2,
    change_number_of_fields, change_kind, change_order, *[change_blocks] * 3, repeat, leave_out, make_long, cut,
]


def changed(chance, text):
    """The lines of a text with some changes, none of which ends the block."""
    lines = text.split(b"\n")
    for _ in range(chance.choice([1, 1, 2, 3, 5, 8])):
        if lines:
            chance.choice(CHANGES)(chance, lines, chance.randrange(len(lines)))
    return [b".." if line in (b".", b".\r") else line for line in lines]


def settings(chance):
    """Ownertrust, date and options, and the commands that set them."""
    state, commands = keyring.opening(), []
    for name in "ABCD":
        fpr = bytes.fromhex(f"00000000000000DD{'0' * 48}" if name == "D" else fingerprint(name))
        trust = chance.choice([6, 6, 5, 4, 3, 2]) if name == "A" else chance.choice(keyring.TRUST_NUMBERS)
        commands.append(f"trust {fpr.hex()} {OWNER_LETTERS[trust]}\n")
        if trust:
            state.trusts[fpr] = trust, False
    options = Options(chance.random() < 0.8, chance.choice([1, 2]), chance.choice([2, 3]), chance.choice([1, 2, 5, 255]), chance.choice([1, 2, 3]))
    date = chance.choice([0, 4000, 5000, 2**32 - 1])
    commands.append(f"options {'pgp' if options.pgp else 'classic'} {options.completes} {options.marginals} {options.depth} {options.level}\ndate {date}\n")
    return state._replace(date=date, options=options), "".join(commands)


def whole(lines):
    return b"".join(line + b"\n" for line in lines)


def difference(seed, number):
    """What a case answers, and what it should, where they differ; and its replies."""
    chance = random.Random(f"{seed} {number}")
    state, commands = settings(chance)
    lines, owners = changed(chance, chance.choice(LISTINGS)), changed(chance, OWNERTRUST)
    first, after = listing.imported(state, lines)
    second, after = ownertrust.imported(after, owners)
    reply = first + second
    shows = keyring.sigs(after) + b"ok\n" + keyring.export(after) + b"ok\n"
    wanted = b"ok\n" * commands.count("\n") + reply + shows + keyring.tally(after) + b"ok\nok\n"
    given = commands.encode() + b"import\n" + whole(lines) + b".\nownertrust\n" + whole(owners) + b".\nsigs\nexport\ncheck\ncompact\n"
    with folder() as where:
        try:
            done, again = run(given, where=where, timeout=60), run("sigs\nexport\n", where=where, timeout=60)
        except subprocess.TimeoutExpired:
            return f"case {number}: no end", reply
        moved = store.read_sides(where)[1]
    if (again.returncode, again.stdout, again.stderr) != (0, shows, b"") or moved != store.side_for(2, after):
        return f"case {number}: moved to the other side it tells {short(again.stdout)} {again.stderr!r}, in place of {short(shows)}, of\n{given!r}", reply
    if (done.returncode, done.stdout, done.stderr) == (int(b"err" in reply), wanted, b""):
        return None, reply
    told, want = next(((a, b) for a, b in itertools.zip_longest(done.stdout.split(b"\n"), wanted.split(b"\n")) if a != b), ("all", "all"))
    return f"case {number}: status {done.returncode} {done.stderr!r}: {short(told)} in place of {short(want)}, of\n{given!r}", reply


def cases(seed, seconds):
    """Cases one after the other, until the time is over."""
    end = time.monotonic() + seconds
    with ThreadPoolExecutor() as pool:
        for first in itertools.count(0, 200):
            if time.monotonic() > end:
                return
            yield from pool.map(lambda number: difference(seed, number), range(first, first + 200))


def main():
    parser = argparse.ArgumentParser()
    parser.add_argument("program")
    parser.add_argument("--time", type=float, default=10)
    parser.add_argument("--seed", type=int, default=1)
    parser.add_argument("--case", type=int)
    asked = parser.parse_args()
    # no store here has to outlive a stop of the machine
    tempfile.tempdir = "/dev/shm" if pathlib.Path("/dev/shm").is_dir() else None
    resource.setrlimit(resource.RLIMIT_AS, (MEMORY, MEMORY))
    tried = [difference(asked.seed, asked.case)] if asked.case is not None else list(cases(asked.seed, asked.time))
    wrong = [said for said, _ in tried if said]
    if wrong:
        sys.exit(f"hostile: seed {asked.seed}: {len(wrong)} of {len(tried)} cases: " + "\n".join(wrong[:3]))
    replies = [line for _, reply in tried for line in reply.splitlines()]
    names = sorted({line.split()[-1].decode() for line in replies if line.startswith(b"err")})
    accepted = sum(line.startswith(b"ok") for line in replies)
    print(f"hostile: seed {asked.seed}: {len(replies)} texts as a second reader has them, {accepted} of them accepted; faults {' '.join(names)}")


if __name__ == "__main__":
    main()
