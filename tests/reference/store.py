"""A second reading of docs/FORMATS.md: what a pair of store files shows, or which fault it has first; and how a side is written.

It shares nothing with the program. `tests/store_bytes.py` tries it on bytes that were worked out by hand.
"""
import hashlib
import os
from typing import NamedTuple

from . import listing
from . import made
from .keyring import (
    RECORD, SCOPE, TRUST_NUMBERS, Cert, Key, Options, Row, State, User, is_well_formed, key_id, limit_passed, opening, order, rows_of,
)

GATE, MAGIC, HEADER, PAGE, CONTENT = 0xA5, b"WOTBASE", 24, 4096, 4064
MOST = 2**32 - 1
NAMES = ("wot.0", "wot.1")
# the format of images that is written, and the rules by which their rows are counted now
FORMAT, RULES = 3, 2
FORMATS = (1, 2, 3)
# the tags of an import: certifications that may name a fingerprint have one of their own, and the other is read alone
IMPORT, FIRST_IMPORT = 9, 1
LAST_EPOCH = 2**64 - 1


class NoSpelling(Exception):
    """The bytes spell nothing."""


class Bad(NamedTuple):
    """The name of the first fault of a store."""

    name: str


class Shown(NamedTuple):
    """What a store shows: a state, and the side, the epoch and the journal's end that it is read from."""

    state: State
    side: int
    epoch: int
    end: int


def need(holds):
    if not holds:
        raise NoSpelling


def rise(values):
    """The values, which must rise strictly."""
    need(all(a < b for a, b in zip(values, values[1:])))


class Bytes:
    """Bytes that are read from the front on; certifications in them may name fingerprints, and rows delegators, or have no room for these."""

    def __init__(self, data, has_named=True, has_vias=True):
        self.data, self.at = data, 0
        self.has_named, self.has_vias = has_named, has_vias
        # certifications without that room, each of which is longer by one byte where it is written now
        self.shorter = 0

    def take(self, size):
        need(self.at + size <= len(self.data))
        self.at += size
        return self.data[self.at - size:self.at]

    def number(self, size):
        return int.from_bytes(self.take(size), "big")

    def flag(self):
        value = self.number(1)
        need(value < 2)
        return value == 1

    def text(self):
        return self.take(self.number(4))

    def list(self, read):
        return [read() for _ in range(self.number(4))]

    def trust(self):
        value = self.number(1)
        need(value in TRUST_NUMBERS)
        return value

    def end(self):
        need(self.at == len(self.data))

    def fingerprint(self):
        size = self.number(1)
        need(size in (20, 32))
        return self.take(size)

    def scope(self):
        if not self.flag():
            return None
        text = self.text()
        need(1 <= len(text) <= SCOPE)
        return text

    def named(self):
        if self.has_named:
            return self.fingerprint() if self.flag() else None
        self.shorter += 1
        return None

    def cert(self):
        numbers = self.number(8), self.number(1), self.flag(), *(self.number(size) for size in (4, 4, 1, 1))
        return Cert(*numbers, self.scope(), self.named())

    def user(self):
        kind = int(self.flag())
        return User(kind, self.text(), self.text(), self.number(4), self.number(4), self.flag(), tuple(self.list(self.cert)))

    def key(self):
        numbers = (self.fingerprint(), *(self.number(4) for _ in range(4)))
        key = Key(*numbers, self.flag(), self.text(), tuple(self.list(self.user)))
        need(is_well_formed(key))
        return key

    def keys(self):
        keys = self.list(self.key)
        rise([key_id(key.fpr) for key in keys])
        return {key_id(key.fpr): key for key in keys}

    def entry(self):
        fpr, value = self.fingerprint(), self.number(1)
        need(value != 0 and value & 127 in TRUST_NUMBERS)
        return fpr, (value & 127, value > 127)

    def entries(self):
        entries = self.list(self.entry)
        rise([order(fpr) for fpr, _ in entries])
        return dict(entries)

    def options(self):
        options = Options(self.flag(), self.number(4), self.number(4), self.number(1), self.number(1))
        need(options.completes >= 1 and options.marginals >= 2 and options.depth >= 1 and 1 <= options.level <= 3)
        return options

    def via(self):
        return self.number(8) if self.has_vias and self.flag() else None

    def row(self):
        return self.number(8), Row(self.number(1), self.trust(), self.number(1), self.scope(), self.via())

    def rows(self):
        rows = self.list(self.row)
        rise([key for key, _ in rows])
        return dict(rows)


def read_base(contents):
    """The state of the contents of a base, and its rows where they were counted by the rules of now: an image, and then fewer bytes 00 than a page has."""
    front = Bytes(contents)
    image = Bytes(front.take(front.number(8)))
    padding = contents[front.at:]
    need(len(padding) < CONTENT and not any(padding))
    form = image.number(1)
    need(form in FORMATS)
    image.has_named, image.has_vias = form > 1, form > 2
    rules = image.number(1) if form == FORMAT else 0
    need(form < FORMAT or 1 <= rules <= RULES)
    date, options = image.number(4), image.options()
    trusts, keys, rows = image.entries(), image.keys(), image.rows()
    image.end()
    state = State(keys, trusts, date, options)
    need(limit_passed(state) is None)
    return state, rows if rules == RULES else None


def set_entry(state, fpr, trust, disabled):
    trusts = {other: entry for other, entry in state.trusts.items() if other != fpr}
    if trust or disabled:
        trusts[fpr] = trust, disabled
    return state._replace(trusts=trusts)


def put(state, keys, entries):
    """The state with these keys and entries, or nothing where a limit is passed or a key ID is taken."""
    after = state._replace(keys=state.keys | keys, trusts=state.trusts | entries)
    taken = any(k in state.keys and state.keys[k].fpr != key.fpr for k, key in keys.items())
    return None if limit_passed(after) or taken else after


def sampled(seed, count):
    """The edit that sets the keys and the entries that `sample` makes."""
    lines = [line.encode().rstrip(b"\n") for n in range(count) for line in made.lines(seed, n, "")]
    keys = {k: key._replace(revoked=made.is_revoked(k & 2**32 - 1)) for k, key in listing.read(lines)[0].items()}
    entries = {bytes.fromhex(made.fingerprint(seed, n)): (made.entry(seed, n), False) for n in range(count) if made.entry(seed, n)}
    return lambda state: put(state, keys, entries)


def read_edit(payload):
    """The edit that a payload spells: from a state to the state after it, or to nothing where it is refused."""
    data = Bytes(payload, has_named=payload[:1] != bytes([FIRST_IMPORT]))
    tag = data.number(1)
    need(tag in EDITS)
    edit = EDITS[tag](data)
    data.end()
    return edit if len(payload) + data.shorter <= RECORD else lambda state: None


def import_of(data):
    keys = data.keys()
    return lambda state: put(state, keys, {})


def ownertrust_of(data):
    entries = data.entries()
    return lambda state: put(state, {}, entries)


def set_of(data):
    fpr, trust = data.fingerprint(), data.trust()
    return lambda state: within(set_entry(state, fpr, trust, state.trusts.get(fpr, (0, False))[1]))


def flag_of(data):
    fpr, flag = data.fingerprint(), data.flag()
    return lambda state: within(set_entry(state, fpr, state.trusts.get(fpr, (0, False))[0], flag))


def delete_of(data):
    gone = data.number(8)
    return lambda state: state._replace(keys={k: key for k, key in state.keys.items() if k != gone}) if gone in state.keys else None


def date_of(data):
    date = data.number(4)
    return lambda state: state._replace(date=date)


def options_of(data):
    options = data.options()
    return lambda state: state._replace(options=options)


def sample_of(data):
    seed, count = data.number(8), data.number(4)
    need(1 <= count <= 100000)
    return sampled(seed, count)


def within(state):
    return None if limit_passed(state) else state


EDITS = {FIRST_IMPORT: import_of, IMPORT: import_of, 2: ownertrust_of, 3: set_of, 4: flag_of, 5: delete_of, 6: date_of, 7: options_of, 8: sample_of}


def is_blank(side):
    return len(side) < HEADER or side[0] != GATE


def base_end(pages):
    return HEADER + PAGE * pages


def seal(epoch, number, content):
    return hashlib.sha256(epoch.to_bytes(8, "big") + number.to_bytes(8, "big") + content).digest()


def page_contents(data, epoch, pages):
    """The contents of the pages, or nothing where a seal differs."""
    contents = []
    for number in range(pages):
        page = data[base_end(number):base_end(number + 1)]
        if seal(epoch, number, page[:CONTENT]) != page[CONTENT:]:
            return None
        contents.append(page[:CONTENT])
    return b"".join(contents)


def shown_base(data, epoch, pages):
    """The state of a base, or its first fault. Rows that were counted by the rules of now must be those of its introducers: neither more nor fewer, nor others."""
    if base_end(pages) >= min(len(data), MOST):
        return Bad("Short")
    contents = page_contents(data, epoch, pages)
    if contents is None:
        return Bad("Seal")
    try:
        state, rows = read_base(contents)
    except NoSpelling:
        return Bad("Spelling")
    return state if rows is None or rows == rows_of(state) else Bad("Row")


def after_record(data, state, at):
    """The state after the record behind an open gate, and the place of the next gate; or the first fault."""
    limit = min(len(data), MOST)
    end = at + 5 + int.from_bytes(data[at + 1:at + 5], "big")
    if at + 5 > limit or end >= limit:
        return Bad("Short")
    try:
        edit = read_edit(data[at + 5:end])
    except NoSpelling:
        return Bad("BadPayload")
    state = edit(state)
    return Bad("BadEdit") if state is None else (state, end)


def replayed(data, state, at):
    """The state after the records from a place on and the journal's end, or the first fault."""
    while data[at] == GATE:
        found = after_record(data, state, at)
        if isinstance(found, Bad):
            return found
        state, at = found
    return state, at


def shown(zero, one):
    """What a pair of sides shows."""
    sides = (zero, one)
    open_sides = [n for n, side in enumerate(sides) if not is_blank(side)]
    if not open_sides:
        return Shown(opening(), 0, 1, base_end(1))
    if any(sides[n][1:8] != MAGIC for n in open_sides):
        return Bad("Magic")
    epochs = {n: int.from_bytes(sides[n][8:16], "big") for n in open_sides}
    if len(set(epochs.values())) < len(epochs):
        return Bad("SameEpoch")
    side = max(epochs, key=epochs.get)
    pages = int.from_bytes(sides[side][16:24], "big")
    base = shown_base(sides[side], epochs[side], pages)
    if isinstance(base, Bad):
        return base
    after = replayed(sides[side], base, base_end(pages))
    return after if isinstance(after, Bad) else Shown(after[0], side, epochs[side], after[1])


def edited(found, payload):
    """What a store shows after the edit of this payload, which is accepted."""
    return found._replace(state=read_edit(payload)(found.state), end=found.end + len(record(payload)))


def compacted(found):
    """What a store shows after it has moved to its other side."""
    if found.epoch == LAST_EPOCH:
        return found
    pages = pages_of(image_bytes(found.state, rows_of(found.state)))
    return Shown(found.state, 1 - found.side, found.epoch + 1, base_end(pages))


def read_sides(where):
    """What the two files of a folder hold; one that is missing is empty."""
    return tuple(read_file(os.path.join(where, name)) for name in NAMES)


def read_file(path):
    with open(path if os.path.exists(path) else os.devnull, "rb") as file:
        return file.read()


def write_sides(where, sides):
    for name, data in zip(NAMES, sides):
        with open(os.path.join(where, name), "wb") as file:
            file.write(data)


def number(value, size):
    return value.to_bytes(size, "big")


def text(value):
    return number(len(value), 4) + value


def some(values, spell):
    return number(len(values), 4) + b"".join(map(spell, values))


def optional(value, spell):
    """A flag, and what there is."""
    return b"\0" if value is None else b"\1" + spell(value)


def cert_bytes(cert, has_named=True):
    """A certification; the first form has no room for a fingerprint."""
    numbers = number(cert.issuer, 8) + bytes([cert.kind, cert.local]) + number(cert.made, 4) + number(cert.expires, 4)
    assert has_named or cert.issuer_fpr is None
    return numbers + bytes([cert.depth, cert.amount]) + optional(cert.scope, text) + (optional(cert.issuer_fpr, fingerprint_bytes) if has_named else b"")


def user_bytes(user, has_named=True):
    head = bytes([user.kind]) + text(user.text) + text(user.hash) + number(user.made, 4) + number(user.expires, 4)
    return head + bytes([user.revoked]) + some(user.certs, lambda cert: cert_bytes(cert, has_named))


def fingerprint_bytes(fpr):
    return bytes([len(fpr)]) + fpr


def key_bytes(key, has_named=True):
    numbers = b"".join(number(value, 4) for value in (key.bits, key.algo, key.made, key.expires))
    return fingerprint_bytes(key.fpr) + numbers + bytes([key.revoked]) + text(key.caps) + some(key.users, lambda user: user_bytes(user, has_named))


def keys_bytes(keys, has_named=True):
    return some([keys[k] for k in sorted(keys)], lambda key: key_bytes(key, has_named))


def import_payload(keys, tag=IMPORT):
    """The payload of an import of these keys."""
    return bytes([tag]) + keys_bytes(keys, tag == IMPORT)


def entry_bytes(entry):
    fpr, (trust, disabled) = entry
    return fingerprint_bytes(fpr) + bytes([trust + 128 * disabled])


def options_bytes(options):
    return bytes([options.pgp]) + number(options.completes, 4) + number(options.marginals, 4) + bytes([options.depth, options.level])


def row_bytes(entry, has_vias=True):
    key, row = entry
    head = number(key, 8) + bytes([row.level, row.trust, row.left]) + optional(row.scope, text)
    return head + (optional(row.via, lambda via: number(via, 8)) if has_vias else b"")


def image_bytes(state, rows, form=FORMAT, rules=RULES):
    """The image of a state with these rows, as it is written now or was before."""
    body = bytes([form, rules] if form == FORMAT else [form]) + number(state.date, 4) + options_bytes(state.options)
    body += some(sorted(state.trusts.items(), key=lambda entry: order(entry[0])), entry_bytes)
    body += keys_bytes(state.keys, form > 1) + some(sorted(rows.items()), lambda entry: row_bytes(entry, form > 2))
    return number(len(body), 8) + body


def record(payload):
    """A record in front of its next gate."""
    return bytes([GATE]) + text(payload)


def pages_of(image):
    """How many pages hold an image."""
    return -(-len(image) // CONTENT)


def side_of(epoch, image, payloads=()):
    """A side with the image as its base, these records behind it, and a closed gate."""
    pages = pages_of(image)
    header = bytes([GATE]) + MAGIC + number(epoch, 8) + number(pages, 8)
    contents = [image[CONTENT * n:CONTENT * (n + 1)].ljust(CONTENT, b"\0") for n in range(pages)]
    return header + b"".join(c + seal(epoch, n, c) for n, c in enumerate(contents)) + b"".join(map(record, payloads)) + b"\0"


def side_for(epoch, state, payloads=()):
    return side_of(epoch, image_bytes(state, rows_of(state)), payloads)
