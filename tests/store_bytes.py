#!/usr/bin/env python3
"""Tries the second reading of docs/FORMATS.md on bytes of a store that were worked out by hand, and on each fault of a store."""
import sys

from reference.keyring import Cert, Key, Options, Row, State, User, opening, rows_of
from reference.store import (
    CONTENT, FIRST_IMPORT, HEADER, IMPORT, LAST_EPOCH, RULES, Bad, Shown, cert_bytes, compacted, edited, image_bytes, import_payload, record, row_bytes,
    shown, side_for, side_of,
)

WORKED = (
    ("the image of the opening state", image_bytes(opening(), {}), "000000000000001d 03 02 00000000 01 00000001 00000003 05 02 00000000 00000000 00000000"),
    ("its image in the first format", image_bytes(opening(), {}, 1), "000000000000001c 01 00000000 01 00000001 00000003 05 02 00000000 00000000 00000000"),
    ("the second format", image_bytes(opening(), {}, 2)[:13], "000000000000001c 02 00000000"),
    ("a row", row_bytes((0xBB, Row(2, 4, 1, b"x", 0xAA))), "00000000000000bb 02 04 01 01 00000001 78 01 00000000000000aa"),
    ("a row without a delegator", row_bytes((0xBB, Row(0, 6, 0, None))), "00000000000000bb 00 06 00 00 00"),
    ("a row of the older formats", row_bytes((0xBB, Row(2, 4, 1, b"x", 0xAA)), has_vias=False), "00000000000000bb 02 04 01 01 00000001 78"),
    (
        "a certification that names a fingerprint", cert_bytes(Cert(0xAA, 0x13, False, 2000, 0, 1, 120, None, bytes(19) + b"\xaa")),
        "00000000000000aa 13 00 000007d0 00000000 01 78 00 01 14 00000000000000000000000000000000000000aa",
    ),
    ("one that names none", cert_bytes(Cert(0xAA, 0x13, True, 2000, 0, 0, 0, b"x")), "00000000000000aa 13 01 000007d0 00000000 00 00 01 00000001 78 00"),
    ("one in the first form", cert_bytes(Cert(0xAA, 0x13, True, 2000, 0, 0, 0, b"x"), False), "00000000000000aa 13 01 000007d0 00000000 00 00 01 00000001 78"),
    ("an import of no keys", import_payload({}), "09 00000000"),
    ("the header of a new store", side_for(1, opening())[:HEADER], "a5 574f5442415345 0000000000000001 0000000000000001"),
    ("a record of ownertrust", record(bytes.fromhex("0314" + "00" * 19 + "aa06")), "a5 00000017 03 14 00000000000000000000000000000000000000aa 06"),
)


def worked():
    """What was worked out by hand, and is something else here."""
    for name, bytes_here, wanted in WORKED:
        yield name, bytes_here.hex(), wanted.replace(" ", "")
    fresh, trusted = side_for(1, opening()), side_for(1, opening(), [bytes.fromhex("0314" + "00" * 19 + "aa06")])
    yield "the length of a new store", (len(fresh), shown(fresh, b"").end), (4121, 4120)
    yield "the length of one with a record", (len(trusted), shown(trusted, b"").end), (4149, 4148)
    yield "the ownertrust", shown(trusted, b"").state.trusts, {bytes(19) + b"\xaa": (6, False)}
    dated = side_for(1, opening(), [bytes.fromhex("0600001388"), bytes.fromhex("0700000000010000000305" + "02")])
    yield "a date and options", shown(dated, b"").state[2:], (5000, Options(False, 1, 3, 5, 2))
    yield "two blank sides", shown(b"", bytes(100)), Shown(opening(), 0, 1, 4120)
    for name, fault in faults(fresh):
        yield name, fault[0], Bad(fault[1])
    yield from moved(fresh)
    yield from older()


# two keys, of which the first may introduce and certifies the second in a trust signature
A, B = bytes(19) + b"\xaa", bytes(19) + b"\xbb"
CERT = Cert(0xAA, 0x13, False, 2000, 0, 1, 120, b"x")
KEYS = {
    0xAA: Key(A, 255, 22, 1000, 0, False, b"scSC", (User(0, b"A", b"", 1000, 0, False, ()),)),
    0xBB: Key(B, 255, 22, 1000, 0, False, b"scSC", (User(0, b"B", b"", 1000, 0, False, (CERT,)),)),
}
NAMING = {0xAA: KEYS[0xAA], 0xBB: KEYS[0xBB]._replace(users=(KEYS[0xBB].users[0]._replace(certs=(CERT._replace(issuer_fpr=A),)),))}


def older():
    """What was written before is read: its state stands, and of its rows those by the rules of now."""
    for form, rules, keys in ((1, 0, KEYS), (2, 0, KEYS), (2, 0, NAMING), (3, 1, NAMING), (3, 2, NAMING)):
        state = State(keys, {A: (6, False)})
        image = image_bytes(state, rows_of(state), form, rules)
        yield f"a base of format {form} with rules {rules}", shown(side_of(1, image), b""), Shown(state, 0, 1, 4120)
        others = shown(side_of(1, image_bytes(state, {0xBB: Row(0, 6, 0, None)}, form, rules)), b"")
        yield f"other rows in a base of format {form} with rules {rules}", others, Bad("Row") if rules == RULES else Shown(state, 0, 1, 4120)
        yield f"format {form} with rules {rules} moved", compacted(shown(side_of(1, image), b"")), Shown(state, 1, 2, 4120)
    state = State(KEYS, {})
    for tag in (FIRST_IMPORT, IMPORT):
        payload = import_payload(KEYS, tag)
        yield f"an import of tag {tag}", shown(side_for(1, opening(), [payload]), b""), Shown(state, 0, 1, 4120 + 5 + len(payload))
    yield "an import that names a fingerprint", shown(side_for(1, opening(), [import_payload(NAMING)]), b"").state, State(NAMING, {})
    for name, payload in (("the first form under the new tag", b"\x09" + import_payload(KEYS, 1)[1:]), ("the new form under the first tag", b"\1" + import_payload(KEYS)[1:])):
        yield name, shown(side_for(1, opening(), [payload]), b""), Bad("BadPayload")


def moved(fresh):
    """Stores that are moved to their other side, which may end in what an earlier base left there."""
    trusted = side_for(1, opening(), [bytes.fromhex("0314" + "00" * 19 + "aa06")])
    first = shown(trusted, b"")
    second = compacted(first)
    moved_once = side_for(2, first.state)
    yield "a new side", (second, shown(trusted, moved_once)), (Shown(first.state, 1, 2, 4120),) * 2
    third = compacted(edited(second, bytes.fromhex("0600001388")))
    moved_twice = side_for(3, third.state) + trusted[4121:]
    yield "the first side again", (third, shown(moved_twice, moved_once)), (Shown(first.state._replace(date=5000), 0, 3, 4120),) * 2
    last = Shown(opening(), 0, LAST_EPOCH, 4120)
    yield "the last epoch", (compacted(last), shown(side_for(LAST_EPOCH, opening()), fresh)), (last, last)


def faults(fresh):
    """Each fault of a store, made from a new one."""
    later, image = side_for(2, opening()), image_bytes(opening(), {})
    yield "another magic", (shown(later, fresh[:1] + b"X" + fresh[2:]), "Magic")
    yield "equal epochs", (shown(fresh, fresh), "SameEpoch")
    yield "no gate behind the pages", (shown(fresh[:-1], b""), "Short")
    yield "pages that pass the side", (shown(b"", later[:23] + b"\2" + later[24:]), "Short")
    yield "a page of another epoch", (shown(later[:15] + b"\3" + later[16:], fresh), "Seal")
    yield "no pages", (shown(fresh[:23] + b"\0" + bytes(9), b""), "Spelling")
    yield "a page too many", (shown(side_of(1, image + bytes(CONTENT)), b""), "Spelling")
    yield "a byte behind the image", (shown(side_of(1, image + b"\1"), b""), "Spelling")
    yield "another format", (shown(side_of(1, image[:8] + b"\4" + image[9:]), b""), "Spelling")
    yield "an older format with a rules byte", (shown(side_of(1, image[:8] + b"\2" + image[9:]), b""), "Spelling")
    yield "no rules", (shown(side_of(1, image[:9] + b"\0" + image[10:]), b""), "Spelling")
    yield "rules to come", (shown(side_of(1, image[:9] + b"\3" + image[10:]), b""), "Spelling")
    yield "no rules byte", (shown(side_of(1, image_bytes(opening(), {}, 2)[:8] + b"\3" + image_bytes(opening(), {}, 2)[9:]), b""), "Spelling")
    yield "a row of no key", (shown(side_of(1, image_bytes(opening(), {1: Row(0, 6, 0, None)})), b""), "Row")
    yield "a row of no key, and a record that passes the side", (shown(side_of(1, image_bytes(opening(), {1: Row(0, 6, 0, None)}))[:-1] + b"\xa5", b""), "Row")
    yield "a record that passes the side", (shown(side_for(1, opening())[:-1] + b"\xa5\0\0\0\1\6", b""), "Short")
    yield "a payload that spells nothing", (shown(side_for(1, opening(), [b"\6\0\0\0"]), b""), "BadPayload")
    yield "a key that is not there", (shown(side_for(1, opening(), [b"\5" + bytes(8)]), b""), "BadEdit")


if __name__ == "__main__":
    found = list(worked())
    wrong = [f"{name}: {here} in place of {wanted}" for name, here, wanted in found if here != wanted]
    if wrong:
        sys.exit("\n".join(["store_bytes:", *wrong]))
    print(f"store_bytes: {len(found)} worked bytes ok")
