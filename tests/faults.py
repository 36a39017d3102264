#!/usr/bin/env python3
"""Tries faults of a store's bytes and of listings that were worked out by hand on the built program.

faults.py PROGRAM: each damaged store ends a run with status 6 and the name of its fault, tells nothing, and is as it was; each listing is refused
by its line and its fault.
"""
import os

from reference import store
from reference.program import fingerprint, folder, key, key_id, run, short, trust

TRUSTS = (trust("A", "u") + trust("B", "m")).encode()
# where the journal of a new store begins: behind the header and one page
JOURNAL = 24 + 4096


def opened_by(edits):
    """The bytes of both sides of a store that these edits made."""
    with folder() as where:
        run(edits, where=where)
        return [open(os.path.join(where, name), "rb").read() for name in store.NAMES]


def changed(side, at, text):
    return side[:at] + text + side[at + len(text):]


def sealed(side, at, text):
    """The side with other bytes in its first page, whose seal is made anew."""
    page = changed(side, at, text)[24:JOURNAL]
    return side[:24] + page[:4064] + store.seal(1, 0, page[:4064]) + side[JOURNAL:]


def stores():
    """What is wrong, the sides, and the name that is told."""
    (zero, one), (new, _) = opened_by(TRUSTS), opened_by(b"export\n")
    yield "another letter in the header", (changed(zero, 1, b"\x58"), one), "Magic"
    yield "a copy on the other side", (zero, zero), "SameEpoch"
    yield "a side that ends within its page", (zero[:4000], one), "Short"
    yield "an image of no format, well sealed", (sealed(zero, 32, b"\xff"), one), "Spelling"
    yield "a byte of the page changed", (changed(zero, 32, b"\xff"), one), "Seal"
    yield "a record that passes the end", (new[:JOURNAL] + bytes.fromhex("a5ffffffff00"), one), "Short"
    yield "a record of no edit", (new[:JOURNAL] + bytes.fromhex("a500000001ff00"), one), "BadPayload"
    yield "a record that takes away a key that isn't there", (new[:JOURNAL] + bytes.fromhex("a5000000090500000000000000aa00"), one), "BadEdit"


def with_bytes(side, *changes):
    for at, byte in changes:
        side = changed(side, at, bytes([byte]))
    return side


def bases():
    """Headers and pages that were changed, of a store that was compacted once: what is wrong, the sides, and the name that is told."""
    zero, one = opened_by(b"compact\n")
    wrong = (7, 0x46)
    yield "another last letter in the header", (with_bytes(zero, wrong), b""), "Magic"
    yield "the same on the other side", (zero, with_bytes(one, wrong)), "Magic"
    yield "the same on both sides", (with_bytes(zero, wrong), with_bytes(one, wrong)), "Magic"
    yield "one epoch on both sides", (zero, with_bytes(one, (15, 1))), "SameEpoch"
    yield "one epoch on both sides, and a page that isn't there", (with_bytes(zero, (23, 2)), with_bytes(one, (15, 1), (23, 2))), "SameEpoch"
    yield "one page too many", (with_bytes(zero, (23, 2)), b""), "Short"
    yield "as many pages as a number holds", (with_bytes(zero, (16, 0xFF)), with_bytes(one, (16, 0xFF))), "Short"
    yield "a greater epoch over a side that ends within its page", (zero, one[:4000]), "Short"
    yield "the seal of another epoch", (with_bytes(zero, (15, 2)), b""), "Seal"
    yield "a byte of the shown page changed", (zero, with_bytes(one, (30, 1))), "Seal"
    yield "a byte of its seal changed", (zero, with_bytes(one, (4119, one[4119] ^ 1))), "Seal"
    yield "no pages", (with_bytes(zero, (23, 0)), b""), "Spelling"
    yield "no pages on the shown side", (zero, with_bytes(one, (23, 0))), "Spelling"


def head(name):
    return f"pub:-:255:22:{key_id(name)}:1000:::-:::scSC:\nfpr:::::::::{fingerprint(name)}:\n"


def listings():
    """What is wrong, the listing, and the line and the fault that are told."""
    many = "".join(f"uid:-::::1000::::A {n} <a{n}@example.org>:\n" for n in range(1025))
    yield "a user ID more than a key may have", head("A") + many, "1027 LimitReached"
    for field in ("256 1", "1  60"):
        sig = f"sig:!:::{key_id('A')}:2000::{field}:::13x:\n"
        yield f"a trust signature of {field!r}", key("B", sig), "4 BadTrustField"
    yield "a key that ends after its fifth field", f"pub:-:255:22:{key_id('A')}\n", "1 ShortRecord"


def told_of(sides):
    """What a run on these sides tells, and whether they stay."""
    with folder() as where:
        for name, side in zip(store.NAMES, sides):
            with open(os.path.join(where, name), "wb") as file:
                file.write(side)
        done = run(b"list\n", where=where)
        after = [open(os.path.join(where, name), "rb").read() for name in store.NAMES]
    return done.returncode, done.stdout, done.stderr, after == list(sides)


def main():
    failed = tried = 0
    for what, sides, name in (*stores(), *bases()):
        tried += 1
        told, wanted = told_of(sides), (6, b"", f"wot: bad store: {name}\n".encode(), True)
        if told != wanted:
            failed += 1
            print(f"faults: {what}: {short(str(told))}, and not {wanted}")
    for what, text, fault in listings():
        tried += 1
        done = run(f"import\n{text}.\n")
        if (done.returncode, done.stdout) != (1, f"err listing {fault}\n".encode()):
            failed += 1
            print(f"faults: {what}: {done.returncode} {short(done.stdout)}, and not {fault}")
    print(f"faults: {tried} worked faults of stores and listings, {failed} told otherwise")
    return 1 if failed else 0


if __name__ == "__main__":
    raise SystemExit(main())
