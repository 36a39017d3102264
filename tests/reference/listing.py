"""A second reading of docs/FORMATS.md: what a listing gives, or its first fault with its line.

It shares nothing with the program, and goes by the table of the records, field by field.
"""
import calendar
import datetime
import re

from .keyring import CLASSES, KEY_CERTS, KEY_USERS, SCOPE, Cert, Key, User, key_id

ESCAPES = {b"n": b"\n", b"r": b"\r", b"t": b"\t", b"f": b"\f", b"v": b"\v", b"b": b"\b", b"0": b"\0", b"\\": b"\\"}
ENDS = (b"sec", b"crt", b"crs")
HEX = rb"[0-9A-Fa-f]"
FINGERPRINT = HEX + rb"{40}|" + HEX + rb"{64}"
# the bytes of a line without its newline
LINE = 65536


class Fault(Exception):
    """The name of a fault."""


class Fields:
    """The fields of a line, from 1; a missing one is empty."""

    def __init__(self, line):
        self.all = line.split(b":")

    def at_least(self, count):
        if len(self.all) < count:
            raise Fault("ShortRecord")

    def __getitem__(self, place):
        return self.all[place - 1] if place <= len(self.all) else b""

    def number(self, place):
        return digits(self[place], 2**32 - 1, "BadNumber") if self[place] else 0

    def date(self, place):
        return date(self[place])

    def key_id(self, place):
        if not re.fullmatch(HEX + rb"{16}", self[place]):
            raise Fault("BadHex")
        return int(self[place], 16)

    def fingerprint(self, place):
        if not re.fullmatch(FINGERPRINT, self[place]):
            raise Fault("BadHex")
        return bytes.fromhex(self[place].decode())


def digits(field, most, fault):
    value = field.lstrip(b"0")[:20] or b"0"
    if not re.fullmatch(rb"[0-9]+", field) or int(value) > most:
        raise Fault(fault)
    return int(value)


def date(field):
    """Seconds since 1970, or a civil date in UTC; an empty field is 0."""
    if not field:
        return 0
    if not re.fullmatch(rb"[0-9]{8}T[0-9]{6}", field):
        return digits(field, 2**32 - 1, "BadDate")
    try:
        civil = datetime.datetime.strptime(field.decode(), "%Y%m%dT%H%M%S")
    except ValueError:
        raise Fault("BadDate") from None
    seconds = calendar.timegm(civil.timetuple())
    if not 0 <= seconds < 2**32:
        raise Fault("BadDate")
    return seconds


def unquoted(field):
    """The bytes that a quoted field stands for."""
    def byte(escape):
        if escape[1]:
            return bytes([int(escape[1], 16)])
        if escape[2] not in ESCAPES:
            raise Fault("BadQuote")
        return ESCAPES[escape[2]]
    return re.sub(rb"(?s)\\(?:x(" + HEX + rb"{2})|(.?))", byte, field)


def trust_field(field):
    """Depth and amount of a trust signature."""
    if not field:
        return 0, 0
    pair = field.split(b" ")
    if len(pair) != 2:
        raise Fault("BadTrustField")
    return tuple(digits(number, 255, "BadTrustField") for number in pair)


def only(field, wanted):
    return b"".join(re.findall(wanted, field))


class Block:
    """A key as its records come."""

    def __init__(self, fields):
        fields.at_least(6)
        self.revoked = fields[2].startswith(b"r")
        self.bits, self.algo = fields.number(3), fields.number(4)
        self.id = fields.key_id(5)
        self.made, self.expires = fields.date(6), fields.date(7)
        self.caps = only(fields[12], rb"[A-CE-Za-z]")
        self.fpr, self.primary, self.users, self.in_user, self.certs = None, True, [], False, 0

    def fingerprint(self, fields):
        if not self.primary or self.fpr is not None:
            return
        fields.at_least(10)
        fpr = fields.fingerprint(10)
        if key_id(fpr) != self.id:
            raise Fault("KeyIdDiffers")
        self.fpr = fpr

    def user(self, fields):
        fields.at_least(10)
        revoked = fields[2].startswith(b"r") and not self.revoked
        made, expires, hashed = fields.date(6), fields.date(7), only(fields[8], rb"[0-9A-Za-z]")
        user = User(int(fields[1] == b"uat"), unquoted(fields[10]), hashed, made, expires, revoked, ())
        if any(user[:3] == other[:3] for other, _ in self.users):
            raise Fault("RepeatedUser")
        if len(self.users) == KEY_USERS:
            raise Fault("LimitReached")
        self.users.append((user, []))
        self.in_user = True

    def certification(self, fields):
        """Whether the record is kept."""
        if not self.in_user or not fields[2].startswith(b"!"):
            return False
        fields.at_least(11)
        if not re.match(HEX + rb"{2}", fields[11]):
            raise Fault("BadHex")
        kind = int(fields[11][:2], 16)
        if kind not in CLASSES:
            return False
        issuer = fields.key_id(5)
        if issuer == self.id:
            return False
        made, expires = fields.date(6), fields.date(7)
        depth, amount = trust_field(fields[8])
        scope = unquoted(fields[9]) or None
        named = bytes.fromhex(fields[13].decode()) if re.fullmatch(FINGERPRINT, fields[13]) else None
        if len(scope or b"") > SCOPE or self.certs == KEY_CERTS:
            raise Fault("LimitReached")
        self.certs += 1
        self.users[-1][1].append(Cert(issuer, kind, fields[11][2:3] == b"l", made, expires, depth, amount, scope, named))
        return True

    def leave_primary(self):
        self.primary, self.in_user = False, False

    def key(self):
        if self.fpr is None:
            raise Fault("NoFingerprint")
        users = tuple(user._replace(certs=tuple(certs)) for user, certs in self.users)
        return Key(self.fpr, self.bits, self.algo, self.made, self.expires, self.revoked, self.caps, users)


class Listing:
    """The reader of a whole listing."""

    def __init__(self):
        self.keys, self.seen, self.block, self.kept, self.passed = {}, set(), None, 0, 0

    def end_block(self):
        if self.block is not None:
            self.keys[self.block.id] = self.block.key()
        self.block = None

    def read(self, line):
        fields = Fields(line)
        kind = fields[1]
        if kind == b"pub" or kind in ENDS:
            self.end_block()
        if kind == b"pub":
            block = Block(fields)
            if block.id in self.seen:
                raise Fault("RepeatedKey")
            self.block = block
            self.seen.add(block.id)
        elif kind in (b"sig", b"rev"):
            kept = self.block is not None and self.block.certification(fields)
            self.kept, self.passed = self.kept + kept, self.passed + (not kept)
        elif self.block is not None:
            if kind == b"fpr":
                self.block.fingerprint(fields)
            elif kind in (b"uid", b"uat"):
                self.block.user(fields)
            elif kind in (b"sub", b"ssb"):
                self.block.leave_primary()


def read(lines):
    """The keys of a listing with the numbers of kept and passed records, or the line and the name of its first fault."""
    listing, number = Listing(), 0
    try:
        for number, line in enumerate(lines, 1):
            listing.read(line)
        number = len(lines) + 1
        listing.end_block()
    except Fault as fault:
        return number, str(fault)
    return listing.keys, listing.kept, listing.passed


def imported(state, lines):
    """The reply to an import of these lines, as they are given, into a state without keys; and the state after it."""
    if any(len(line) > LINE for line in lines):
        return b"err line-too-long\n", state
    found = read([line[:-1] if line.endswith(b"\r") else line for line in lines])
    if isinstance(found[0], int):
        return b"err listing %d %s\n" % (found[0], found[1].encode()), state
    keys, kept, passed = found
    return b"ok keys %d kept %d passed %d\n" % (len(keys), kept, passed), state._replace(keys=keys)
