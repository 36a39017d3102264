#!/usr/bin/env python3
"""Opens stores that earlier versions wrote: the keyring is the one that these told, byte for byte, and the letters are those of the rules of now.

Each folder of stores/ has the two files of a store in hexadecimal, the session that made them, and what `sigs` and `list` told then. Stores of the
formats between are made by the second writer, with rows that no rules give. Queries leave the files as they are, an edit goes behind the journal's end,
and after `compact` the base has the format and the rules byte of now.
"""
import pathlib
import sys

from reference import histories, keyring, made, store
from reference.histories import ASKED, NEW
from reference.keyring import Row
from reference.program import by, fingerprint, folder, imported, key, letters, run

STORES = pathlib.Path(__file__).resolve().parent / "stores"
# the user IDs whose letters the rules of now change: what they were, and are
CHANGED = {
    "letters-stay": {},
    "scopes-along-a-chain": {"D <d@other.net>": "f-", "E <e@other.net>": "f-"},
    "expressions": {"C <c@example.org>": "-f", "E <e@example.com>": "-f", "F <f@example.org>": "-f", "G <g@lists.example.net>": "-f"},
}
ANOTHER = "11" + "0" * 36 + "DD"
EDIT = histories.trust("DD", "q")
HEAD_OF_IMAGE = store.HEADER + 8


def unhexed(text):
    """The bytes of a file of stores/: lines of hexadecimal digits, and numbers of zeros."""
    return b"".join(bytes(int(line.split()[0])) if line.endswith(" zeros") else bytes.fromhex(line) for line in text.splitlines())


def kept(name):
    return tuple(unhexed((STORES / name / f"{file}.hex").read_text(encoding="ascii")) for file in store.NAMES)


def told(where, given, *words):
    """What a session tells; it refuses nothing."""
    done = run(given, words, where)
    return done.stdout if (done.returncode, done.stderr) == (0, b"") else done


def opened(sides, form):
    """What differs in a store of an older format: what is asked, the files, an edit, and the store that is moved."""
    found = store.shown(*sides)
    side, shows = sides[found.side], histories.shows(found.state)
    yield "the format of its base", side[HEAD_OF_IMAGE : HEAD_OF_IMAGE + len(form)], form
    with folder() as where:
        store.write_sides(where, sides)
        for words in ((), ("--workers", "4")):
            wanted = shows + keyring.listed(found.state) + b"ok\n" + keyring.tally(found.state) + b"ok\n"
            yield f"what it shows {words}", told(where, ASKED + "list\ncheck\n", *words), wanted
        yield "the files", store.read_sides(where), sides
        yield "an edit", told(where, EDIT.given), b"ok\n"
        after = histories.after(found, EDIT)
        yield "the files after it", store.read_sides(where), histories.written(sides, EDIT)
        yield "what it shows then", told(where, ASKED), histories.shows(after.state)
        yield "moved", told(where, "compact\n" + ASKED), b"ok\n" + histories.shows(after.state)
        moved = store.read_sides(where)
        yield "the format of the new base", moved[1 - found.side][HEAD_OF_IMAGE : HEAD_OF_IMAGE + 2], bytes([store.FORMAT, store.RULES])
        yield "the moved files", moved, histories.written(histories.written(sides, EDIT), histories.COMPACT)
        yield "what they show", told(where, ASKED), histories.shows(after.state)


def kept_stores():
    """The stores of stores/, and what was told of them."""
    for name, changed in CHANGED.items():
        sides = kept(name)
        with folder() as where:
            store.write_sides(where, sides)
            now = {command: told(where, f"{command}\n") for command in ("sigs", "list")}
        for command, text in now.items():
            before = (STORES / name / command).read_bytes()
            yield f"{name}: {command} but for the letters", made.without_letters(text.decode()), made.without_letters(before.decode())
            was, is_now = letters(before.decode()), letters(text.decode())
            yield f"{name}: {command}, the letters", {user: was[user] + is_now[user] for user in was if was[user] != is_now[user]}, changed
            if not changed:
                yield f"{name}: {command}, every byte", text, before
        for what, *pair in opened(sides, b"\1"):
            yield f"{name}: {what}", *pair


def imported_again():
    """A fingerprint that was in a listing and not read then counts from the next import of its key on."""
    block = key("E", by("D", 3000, named=ANOTHER), text="E <e@example.com>")
    with folder() as where:
        store.write_sides(where, kept("expressions"))
        for given, letter in (("list\n", "f"), (imported(block) + "list\n", "-"), ("compact\nlist\n", "-")):
            yield f"E after {given.split()[0]}", letters(told(where, given).decode())["E <e@example.com>"], letter


def formats_between():
    """Stores of the second format, and of the third with the first rules, whose certifications name fingerprints; in either form an import behind them."""
    a, b, c = fingerprint("A"), fingerprint("B"), fingerprint("C")
    blocks = key("A"), key("B", by("A", trusts="2 120", scope="B|C", named=a)), key("C", by("B", 3000, named=b)), key("D", by("C", named=c))
    steps = [histories.trust("A", "u"), histories.keys(*blocks), histories.trust("C", "f"), histories.date(4000)]
    state = histories.states(NEW, steps)[-1].state
    unnamed = histories.after(NEW, histories.keys(key("E", "B"), key("F", "C"))).state.keys
    records = [store.import_payload(unnamed, store.FIRST_IMPORT), histories.keys(key("D", by("C", named=ANOTHER))).payload, histories.trust("E", "m").payload]
    rows = keyring.rows_of(state)
    for form in (b"\2", b"\3\1"):
        for name, stored in (("right", rows), ("no", {}), ("other", {k: row._replace(level=9, trust=0) for k, row in rows.items()}), ("more", rows | {5: Row(1, 5, 0, b"(")})):
            side = store.side_of(7, store.image_bytes(state, stored, *form), records)
            for sides in ((side, b""), (store.side_for(6, keyring.opening()), side)):
                for what, *pair in opened(sides, form):
                    yield f"format {form.hex()} with {name} rows: {what}", *pair


done = 0
for check in (kept_stores, imported_again, formats_between):
    for what, found, wanted in check():
        if found != wanted:
            sys.exit(f"older stores: {what}: {found!r} in place of {wanted!r}"[:4000])
        done += 1
print(f"older stores: {done} ok")
