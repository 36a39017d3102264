#!/usr/bin/env python3
"""Feeds damaged listings and damaged stores to the built program, and compares what it does with a second reading of the formats.

damage.py PROGRAM [--sample NUMBER | --all] [--seed NUMBER] [KIND]...: a listing is cut at every byte, alone and with the session that it stands in.
A store that was moved to its other side twice, with edits before, between and after, has each bit of both files turned, is cut at each length,
exchanged, and has one file replaced by an older copy of itself, by zeros and by bytes of any kind; images, rows, payloads and records are changed, and
written as they were before, under seals and lengths that are right. Each run ends with the fault that a second reader finds first, and leaves both files
as they were, or with the state that it finds, and an edit then goes to the place that it finds. Each fault of a store is made on purpose too, and so
is damage that no run notices. While a run has a store open its shown side is damaged too, and an earlier state is asked: the run ends with the fault that
a second reader finds then, what it told stays told, and the next opening finds what the files show. Of a kind of which there is more a sample is
tried, and all with --all.
"""
import argparse
import collections
import itertools
import os
import random
import re
import subprocess
import sys
import tempfile
from concurrent.futures import ThreadPoolExecutor

from reference import earlier, histories, keyring, listing, store
from reference.histories import COMPACT
from reference.keyring import Options, Row
from reference.program import PROGRAM, REAL, by, fingerprint, folder, key, run, short

BLOCK = (
    REAL
    + key("E", "B", by("A", made="19991231T235959", trusts="1 60", scope="<[^>]+[@.]example\\x5c.org>$", kind="13l"), by("C", kind="30x", record="rev"))
    + "uat:r::::1000:2000:1F1F::1 3201:\nuid:-::::::::Col\\x3aon \\n \\\\:\nsub:u:255:18:00000000000000E1:1000:\n"
    + "sec:u:255:22:00000000000000EE:1000:\ncrt:u:2048:1:00000000000000EF:1000:\n"
).encode()
SESSION = b"import\n" + BLOCK + b".\nlist\n"
LIST_REPLY = rb"tru:[^\n]*\n((pub|fpr|uid|uat):[^\n]*\n)*ok\n"


def cut_listing(size):
    """What differs in the answer to a listing that is cut at this byte."""
    lines = BLOCK[:size].split(b"\n")
    reply, after = listing.imported(keyring.opening(), lines)
    done = run(b"import\n" + BLOCK[:size] + b"\n.\nsigs\n")
    return None if done.stdout == reply + keyring.sigs(after) + b"ok\n" and not done.stderr else done


def cut_session(size):
    """What differs in a session that is cut at this byte: each command that is left of it is answered."""
    done = run(SESSION[:size])
    replies = len(re.findall(rb"^(?:ok|err)\b", done.stdout, re.M))
    wanted = 0 if size == 0 else 1 if size <= len(SESSION) - len(b"list\n") else 2
    whole = size < len(SESSION) or re.fullmatch(rb"ok keys[^\n]*\n" + LIST_REPLY, done.stdout)
    return None if done.returncode in (0, 1) and not done.stderr and replies == wanted and whole else done


EDIT = bytes.fromhex(fingerprint("FF"))
ASKED = f"sigs\nexport\ntrust {EDIT.hex()} n\n"


def opened(sides, words=()):
    """What differs in a run over these sides: the same fault and nothing written, or the same state, and an edit at its end."""
    found = store.shown(*sides)
    with folder() as where:
        store.write_sides(where, sides)
        try:
            done = run(ASKED, words, where, timeout=60)
        except subprocess.TimeoutExpired:
            return "no end"
        left = store.read_sides(where)
    if isinstance(found, store.Bad):
        wanted = (6, b"", b"wot: bad store: %s\n" % found.name.encode())
        return None if (done.returncode, done.stdout, done.stderr) == wanted and left == sides else (found, done, left == sides)
    if (done.returncode, done.stdout, done.stderr) != (0, histories.shows(found.state) + b"ok\n", b""):
        return found, done
    wanted = found._replace(state=store.set_entry(found.state, EDIT, keyring.NEVER, False), end=found.end + 28)
    before = left[found.side][:found.end] == sides[found.side][:found.end]
    kept = left[1 - found.side] == sides[1 - found.side] and (all(map(store.is_blank, sides)) or before)
    return None if store.shown(*left) == wanted and kept else (found, "is not where it should be", left)


def meanwhile(given):
    """What differs where the shown side of a store that a run has open becomes another, and an earlier state is asked."""
    count, data = given
    found, told = store.shown(ZERO, ONE), histories.shows(STATE)
    sides = tuple(data if number == found.side else side for number, side in enumerate((ZERO, ONE)))
    with folder() as where:
        store.write_sides(where, (ZERO, ONE))
        with subprocess.Popen([PROGRAM], cwd=where, stdin=subprocess.PIPE, stdout=subprocess.PIPE, stderr=subprocess.PIPE) as child:
            child.stdin.write(b"sigs\nexport\n")
            child.stdin.flush()
            before = child.stdout.read(len(told))
            store.write_sides(where, sides)
            rest, errors = child.communicate(b"at %d list\nat %d list\n" % (count, len(EDITS) + 1), timeout=60)
        left = store.read_sides(where)
    state = earlier.read_again(data, found.epoch, PAGES, count)
    if isinstance(state, store.Bad):
        wanted = told, b"", b"wot: bad store: %s\n" % state.name.encode(), 6
    else:
        wanted = told, earlier.reply(state, "list") + b"err no-such-time %d\n" % len(EDITS), b"", 1
    done = before, rest, errors, child.returncode
    return (state, done) if done != wanted or left != sides else opened(sides)


def told_by_name(given):
    """What differs where a fault of an earlier state is made on purpose: it is told by its name."""
    name, (count, data) = given
    found, differs = earlier.read_again(data, EPOCH, PAGES, count), meanwhile((count, data))
    return None if found == store.Bad(name) and differs is None else (name, found, differs)


def fault(given):
    """What differs where a fault is made on purpose: it is told by its name, over any number of workers."""
    name, sides = given
    found = store.shown(*sides)
    differs = [opened(sides, words) for words in ((), ("--workers", "4"), ("--workers=64",))]
    return None if found == store.Bad(name) and not any(differs) else (name, found, differs)


def unnoticed(given):
    """What differs where damage is made that shows a state: that state is told."""
    state, sides = given
    found, differs = store.shown(*sides), opened(sides)
    return None if not isinstance(found, store.Bad) and found.state == state and differs is None else (found, differs)


STEPS = [
    histories.trust("A", "u"),
    histories.keys(key("A"), key("B", by("A", trusts="1 60", scope="<[^>]+[@.]b>$", named=fingerprint("A"))), key("C", "A", by("B", kind="30x", record="rev"), expires=9000)),
    histories.trust("B", "f"), histories.date(4000),
    COMPACT,
    histories.trust("C", "m"), histories.options(Options(True, 2, 3, 5, 1)), histories.keys(key("D", by("C", trusts="2 120"), by("A", kind="11l"))),
    COMPACT,
    histories.delete("C"), histories.trust("D", "n"), histories.flag("B", True),
]


STAGES = histories.files((b"", b""), STEPS)
ZERO, ONE = STAGES[-1]
STATE = store.shown(ZERO, ONE).state
# the edits since the base, which is of one page, and the place of each record's gate and of the last one
EDITS, PAGES = STEPS[-3:], 1
GATES = [store.base_end(PAGES) + sum(len(step.payload) + 5 for step in EDITS[:count]) for count in range(len(EDITS) + 1)]
SIDE, EPOCH = (ZERO, ONE)[store.shown(ZERO, ONE).side], store.shown(ZERO, ONE).epoch
IMAGE = store.image_bytes(STATE, keyring.rows_of(STATE))
BASE_STATE = store.shown(*STAGES[-1 - len(EDITS)]).state
BASE = store.image_bytes(BASE_STATE, keyring.rows_of(BASE_STATE))
MADE = store.sampled(7, 60)(keyring.opening())
# a side of several pages
LONG = store.side_for(1, MADE)


def written(stage):
    """What differs in the files that the program writes by the first steps."""
    with folder() as where:
        done = run("".join(step.given for step in STEPS[:stage]), where=where)
        left = store.read_sides(where)
    return None if done.returncode == 0 and left == STAGES[stage] else (done, left)


def with_bit(data, bit):
    place, bit = divmod(bit, 8)
    return data[:place] + bytes([data[place] ^ 1 << bit]) + data[place + 1:]


def with_byte(data, place, byte):
    return data[:place] + bytes([byte]) + data[place + 1:]


def with_number(data, place, value):
    return data[:place] + store.number(value, 8) + data[place + 8:]


def with_pages(data, other, places):
    """A side with pages of another one in their place: the first of these places of the other at 0, and so on."""
    pages = [other[store.base_end(place):store.base_end(place + 1)] for place in places]
    return data[:store.HEADER] + b"".join(pages) + data[store.base_end(len(pages)):]


def with_rows(state, rows, payloads=()):
    """A side with a base of this state and these rows."""
    return store.side_of(1, store.image_bytes(state, rows), payloads)


def turned():
    """One bit of one side is another."""
    yield from ((with_bit(ZERO, bit), ONE) for bit in range(8 * len(ZERO)))
    yield from ((ZERO, with_bit(ONE, bit)) for bit in range(8 * len(ONE)))


def turned_where_it_counts():
    """One bit of a header or of a record is another, in a store of one side too."""
    for data in (ZERO, ONE):
        bits = [*range(8 * store.HEADER), *range(8 * store.base_end(1), 8 * len(data))]
        yield from ((with_bit(data, bit), b"") for bit in bits)
        yield from ((bytes(50), with_bit(data, bit)) for bit in bits)


def replaced():
    """A byte of a side is 00, a5 or any, and a side is zeros, gates or any bytes of its length."""
    for data, pair in ((ZERO, lambda other: (other, ONE)), (ONE, lambda other: (ZERO, other))):
        yield from (pair(with_byte(data, place, byte)) for place in range(len(data)) for byte in (0, store.GATE, chance.randrange(256)))
        wholes = [bytes(len(data)), b"\xa5" * len(data), data[:24] + chance.randbytes(len(data) - 24), *(chance.randbytes(len(data)) for _ in range(8))]
        yield from map(pair, wholes)


def cut():
    """A side ends early."""
    yield from ((ZERO[:size], ONE) for size in range(len(ZERO)))
    yield from ((ZERO, ONE[:size]) for size in range(len(ONE)))
    yield from ((side[:size], b"") for side in (ZERO, ONE) for size in range(len(side)))


def exchanged():
    """Whole sides in another place, older copies, and copies of the same side."""
    sides = sorted({b"", bytes(24), *(side for stage in STAGES for side in stage)})
    yield from ((zero, one) for zero in sides for one in sides)


def images():
    """A base with one bit of its image turned, or a byte of it replaced, under seals that are right."""
    yield from ((store.side_of(1, with_bit(IMAGE, bit)), b"") for bit in range(8 * len(IMAGE)))
    yield from ((ZERO, store.side_of(4, with_byte(IMAGE, place, byte))) for place in range(len(IMAGE)) for byte in (0, 1, 20, 32, 255))
    yield from ((store.side_of(1, IMAGE[:size]), b"") for size in range(len(IMAGE)))


def rows():
    """A base with one row less, one more, or another one, under seals that are right."""
    for state in (STATE, MADE):
        own = keyring.rows_of(state)
        yield from ((with_rows(state, {k: row for k, row in own.items() if k != gone}), b"") for gone in own)
        for k, row in own.items():
            others = [row._replace(level=level) for level in (0, 1, row.level + 1, state.options.depth, 255)]
            others += [row._replace(trust=trust) for trust in keyring.TRUST_NUMBERS] + [row._replace(left=left) for left in (0, row.left + 1, 255)]
            others += [row._replace(scope=scope) for scope in (None, b"x", b"<[^>]+[@.]b>$", b"y" * 255)]
            others += [row._replace(via=via) for via in (None, 0, k, 2**64 - 1, *own)]
            yield from ((with_rows(state, own | {k: other}), b"") for other in others if other != row)
        absent = [0, 2**40, 2**64 - 1, *(k for k in state.keys if k not in own)]
        yield from ((with_rows(state, own | {k: Row(level, 5, 0, None)}), b"") for k in absent for level in (0, 1, 4, 5, 255))


def older():
    """A base of an older format, or of older rules, with the rows of now, fewer, others and none, and an import in the first form behind it."""
    unnamed = histories.after(histories.NEW, histories.keys(key("A"), key("B", by("A", trusts="2 120")), key("C", "B")))
    state = store.edited(unnamed, histories.trust("A", "u").payload).state
    for form, rules, there in ((1, 0, state), (2, 0, state), (2, 0, STATE), (3, 1, STATE), (3, 2, STATE)):
        own = keyring.rows_of(there)
        fewer = {k: own[k] for k in sorted(own)[1:]}
        for stored in (own, fewer, {}, {k: row._replace(level=7, scope=b"(") for k, row in own.items()}, {2**40: Row(9, 0, 9, None)}):
            image = store.image_bytes(there, stored, form, rules)
            yield from ((store.side_of(1, image, records), b"") for records in ((), [store.import_payload(state.keys, store.FIRST_IMPORT)]))
            yield from ((store.side_of(1, with_byte(image, place, byte)), b"") for place in (8, 9) for byte in range(5))
            yield b"", store.side_of(9, image + bytes(3))


def payloads():
    """A record with one bit of its payload turned, in its right frame."""
    edits = [histories.trust("A", "u").payload, store.import_payload(STATE.keys), b"\2" + store.some(sorted(STATE.trusts.items()), store.entry_bytes)]
    edits.append(store.import_payload(histories.after(histories.NEW, histories.keys(key("A"), key("B", "A"))).state.keys, store.FIRST_IMPORT))
    edits += [histories.flag("A", True).payload, histories.delete("B").payload, histories.options(Options()).payload]
    # a sample with a bit turned would be one of very many keys
    yield from ((store.side_for(1, STATE, [with_bit(edit, bit)]), b"") for edit in edits for bit in range(8 * len(edit)))
    edits.append(histories.sample(7, 3).payload)
    yield from ((store.side_for(1, STATE, [edit[:size]]), b"") for edit in edits for size in range(len(edit) + 1))
    yield from ((store.side_for(1, STATE, [edit + b"\0"]), b"") for edit in edits)
    yield from ((store.side_for(1, STATE, [one, other]), b"") for one in edits for other in edits)


def numbers():
    """Numbers at their ends, in headers and in records."""
    for value in (0, 1, 2, 2**20, 2**32 - 1, 2**52, 2**63, 2**64 - 1):
        for place in (8, 16):
            yield with_number(ZERO, place, value), ONE
            yield ZERO, with_number(ONE, place, value)
    fresh = store.side_for(1, STATE)[:-1]
    yield from ((fresh + b"\xa5" + store.number(size, 4) + b"\0" * 20, b"") for size in (0, 1, 14, 15, 16, 2**31, 2**32 - 2, 2**32 - 1))
    yield from ((store.side_of(1, store.number(size, 8) + IMAGE[8:]), b"") for size in (0, 1, len(IMAGE) - 9, len(IMAGE) - 7, 2**63, 2**64 - 8, 2**64 - 1))


def bytes_of_any_kind():
    """Zeros, gates and bytes at random."""
    for size in (0, 1, 23, 24, 25, 4119, 4120, 4121, 9000):
        for data in (bytes(size), b"\xa5" * size, chance.randbytes(size), (ZERO[:24] + chance.randbytes(size))[:size]):
            yield from ((data, ONE), (ZERO, data), (data, b""), (data, data))


def purposes():
    """Each fault of a store, made on purpose, also where later ones stand too."""
    own = keyring.rows_of(STATE)
    fewer = {k: own[k] for k in sorted(own)[1:]}
    new, gone, nothing = store.side_for(1, STATE)[:-1], b"\5" + bytes(8), b"\6\0\0\0"
    taken = store.import_payload({0xAA: STATE.keys[0xAA]._replace(fpr=b"\x11" * 12 + bytes(7) + b"\xaa")})
    yield from (("Magic", sides) for sides in ((with_byte(ZERO, 1, 0x58), ONE), (ZERO, with_byte(ONE, 7, 0)), (ZERO, with_byte(ZERO, 3, 0)), (b"", with_byte(ONE, 2, 1))))
    yield from (("SameEpoch", sides) for sides in ((ZERO, ZERO), (ONE, ONE), (with_bit(ZERO, 8 * 100), ZERO), (ZERO, with_number(ONE, 8, 3))))
    yield from (("Short", (side, b"")) for side in (ZERO[:4000], ZERO[:4120], ZERO[:24], with_number(ZERO, 16, 0)[:24], with_number(ZERO, 16, 2), new + b"\xa5", new + b"\xa5\xff\xff\xff\xff\0", new + store.record(gone)))
    yield from (("SameEpoch", (side, side)) for side in (new + b"\0", store.side_for(2**40, MADE)))
    yield "Seal", (with_number(store.side_for(1, STATE, [histories.date(1).payload] * 600), 16, 2), b"")
    yield from (("Seal", sides) for sides in ((with_pages(LONG, LONG, (1, 0)), b""), (with_pages(LONG, store.side_for(2, MADE), (0,)), b"")))
    yield from (("Seal", sides) for sides in ((with_bit(ZERO, 8 * 100), ONE), (with_bit(ZERO, 8 * 4119), ONE), (with_number(ZERO, 8, 5), ONE), (with_bit(store.side_for(4, MADE), 8 * 8000), ONE)))
    spelled = [with_byte(IMAGE, 8, 0xFF), IMAGE + b"\1", IMAGE + bytes(store.CONTENT), with_byte(IMAGE, 14, 2)]
    spelled += [with_byte(IMAGE, 8, form) for form in (0, 1, 2, 4)] + [with_byte(IMAGE, 9, rules) for rules in (0, store.RULES + 1, 255)]
    spelled += [store.number(len(IMAGE) - 8 - less, 8) + IMAGE[8:len(IMAGE) - less] for less in (1, 4, 20)]
    yield from (("Spelling", (store.side_of(4, image, [nothing]), ONE)) for image in spelled)
    yield from (("Spelling", sides) for sides in ((with_number(ZERO, 16, 0), ONE), (with_number(LONG, 16, 1), b"")))
    yield from (("Row", (with_rows(STATE, fewer, records), b"")) for records in ((), [gone], [nothing], [histories.trust("A", "u").payload]))
    yield "Row", (b"", with_rows(STATE, {}))
    yield "Row", (with_rows(MADE, {k: row._replace(level=row.level + 1) for k, row in keyring.rows_of(MADE).items()}), b"")
    date = histories.date(1).payload
    yield from (("BadPayload", (store.side_for(1, STATE, [date, bad, gone]), b"")) for bad in (nothing, b"", b"\xff", b"\0", b"\x09", b"\x0a", date + b"\0"))
    yield from (("BadEdit", (store.side_for(1, STATE, [date, bad, nothing]), b"")) for bad in (gone, taken, histories.delete("C").payload))


def passed():
    """Damage that shows a state, with that state: what isn't shown is changed, a page is another store's, and a blank side lies over a side."""
    other = STATE._replace(trusts={EDIT: (keyring.FULL, False)})
    yield from ((STATE, (ZERO, with_bit(ONE, 8 * place))) for place in (24, 100, 4119, len(ONE) - 1))
    yield other, (with_pages(store.side_for(1, STATE), store.side_for(1, other), (0,)), b"")
    yield from ((keyring.opening(), sides) for sides in ((b"", b""), (bytes(50), bytes(50))))
    yield store.shown(*STAGES[8]).state, (b"", ONE)


def damaged():
    """How many edits are asked of, and the shown side with a bit turned, a byte replaced, cut, or with other pages or records."""
    end, given = GATES[-1] + 3, [step.payload for step in EDITS]
    sides = [SIDE[:size] for size in (0, 23, 24, 100, *range(store.base_end(PAGES) - 1, end))]
    sides += [with_bit(SIDE, bit) for bit in (*range(8 * store.HEADER), *range(8 * store.HEADER, 8 * store.base_end(PAGES), 1237), *range(8 * store.base_end(PAGES), 8 * end))]
    sides += [with_byte(SIDE, place, byte) for place in GATES for byte in (0, 0x5A, store.GATE)]
    # without its rows a base is as good for an earlier state, whose rows are counted
    sides += [store.side_of(EPOCH, image, given) for image in (with_byte(IMAGE, 8, 0xFF), IMAGE + b"\1", BASE, store.image_bytes(BASE_STATE, {}), IMAGE)]
    others = ([], [b""], [b"\5" + bytes(8)], [histories.date(77).payload])
    sides += [store.side_of(epoch, BASE, given[:count] + more) for epoch in (EPOCH, EPOCH + 1) for count in range(4) for more in others]
    sides += [SIDE + b"\xa5" * 9, bytes(len(SIDE)), b"\xa5" * len(SIDE)]
    yield from ((count, data) for data in sides for count in range(len(EDITS) + 1))


def lost():
    """Each fault that an earlier state can have, made on purpose while a run has the store open."""
    given = [step.payload for step in EDITS]
    yield from (("Lost", (number, with_byte(SIDE, gate, byte))) for number, gate in enumerate(GATES[:-1], 1) for byte in (0, 1, 0xA4))
    yield "Lost", (3, with_byte(with_byte(SIDE, GATES[0], 0), GATES[2], 0))
    yield from (("Short", (0, SIDE[:size])) for size in (0, 24, GATES[0] - 1, GATES[0]))
    yield from (("Short", (2, SIDE[:size])) for size in (GATES[1] + 1, GATES[1] + 5, GATES[2]))
    yield from (("Seal", (count, with_bit(SIDE, 8 * 100))) for count in range(4))
    yield "Seal", (1, store.side_of(EPOCH + 1, BASE, given))
    yield from (("Spelling", (count, store.side_of(EPOCH, image, given))) for count in (0, 3) for image in (with_byte(IMAGE, 8, 0xFF), IMAGE + b"\1"))
    yield from (("BadPayload", (3, store.side_of(EPOCH, BASE, [*given[:2], bad]))) for bad in (b"", b"\xff", b"\6\0\0\0"))
    yield "BadEdit", (2, store.side_of(EPOCH, BASE, [given[0], given[0], b"\xff"]))


FAULTS = ("Magic", "SameEpoch", "Short", "Seal", "Spelling", "Row", "BadPayload", "BadEdit", "Lost")
KINDS = (turned, turned_where_it_counts, replaced, cut, exchanged, images, rows, older, payloads, numbers, bytes_of_any_kind)


def tries():
    """What is tried, kind after kind: its name, how each is looked at, and all that there are."""
    yield "faults made on purpose", fault, purposes()
    yield "damage that is not noticed", unnoticed, passed()
    yield "faults while a run has the store open", told_by_name, lost()
    yield "damage while a run has the store open", meanwhile, damaged()
    yield "stages of a store", written, range(len(STAGES))
    yield "cuts of a listing", cut_listing, range(len(BLOCK) + 1)
    yield "cuts of a session", cut_session, range(len(SESSION) + 1)
    for kind in KINDS:
        yield kind.__name__.replace("_", " "), opened, kind()


def some(things, most):
    """So many of them, each as likely as another, and how many there are."""
    taken, count = [], 0
    for count, thing in enumerate(things, 1):
        if len(taken) < most:
            taken.append(thing)
        elif (place := chance.randrange(count)) < most:
            taken[place] = thing
    return taken, count


def batches(check, things):
    """What is taken of a kind, in batches, each with how many there are of it."""
    if not asked.all:
        yield some(things, asked.sample if check not in (fault, told_by_name, unnoticed, written) else sys.maxsize)
        return
    things = iter(things)
    while batch := list(itertools.islice(things, 1000)):
        yield batch, len(batch)


def outcomes(check, batch):
    """What the tries of a batch come to, by a second reader."""
    if check is opened:
        found = [store.shown(*sides) for sides in batch]
    elif check is meanwhile:
        found = [earlier.read_again(data, EPOCH, PAGES, count) for count, data in batch]
    else:
        found = [store.Bad(name) for name, _ in batch] if check in (fault, told_by_name) else []
    return collections.Counter(one.name if isinstance(one, store.Bad) else "a state" for one in found)


def main():
    found, lines, wrong = collections.Counter(), [], []
    with ThreadPoolExecutor() as pool:
        for name, check, things in tries():
            if asked.kinds and name not in asked.kinds:
                continue
            tried, there = 0, 0
            for batch, count in batches(check, things):
                wrong += [(name, given, differs) for given, differs in zip(batch, pool.map(check, batch)) if differs is not None]
                found += outcomes(check, batch)
                tried, there = tried + len(batch), there + count
            lines.append(f"{name} {tried}" + (f" of {there}" if tried < there else ""))
    if wrong:
        said = "\n".join(f"{name}: of {short(repr(given))}: {short(repr(differs))}" for name, given, differs in wrong[:3])
        sys.exit(f"damage: seed {asked.seed}: {len(wrong)} differ: {said}")
    if not asked.kinds and {*found} != {"a state", *FAULTS}:
        sys.exit(f"damage: not every fault was made: {found}")
    print(f"damage: seed {asked.seed}: {', '.join(lines)}: ok; of the stores " + ", ".join(f"{found[name]} {name}" for name in sorted(found)))


if __name__ == "__main__":
    parser = argparse.ArgumentParser()
    parser.add_argument("program")
    parser.add_argument("kinds", nargs="*")
    parser.add_argument("--sample", type=int, default=150)
    parser.add_argument("--all", action="store_true")
    parser.add_argument("--seed", type=int, default=3)
    asked = parser.parse_args()
    chance = random.Random(asked.seed)
    # no store here has to outlive a stop of the machine
    tempfile.tempdir = "/dev/shm" if os.path.isdir("/dev/shm") else None
    main()
