"""A second reading of docs/RULES.md: a keyring as plain values, the letters of its user IDs, and how it is printed.

It shares nothing with the program, and counts everything from nothing.
"""
from typing import NamedTuple

from .expression import admits

UNKNOWN, UNDEFINED, NEVER, MARGINAL, FULL, ULTIMATE = 0, 2, 3, 4, 5, 6
TRUST_NUMBERS = (UNKNOWN, UNDEFINED, NEVER, MARGINAL, FULL, ULTIMATE)
OWNER_LETTERS = {UNKNOWN: "-", UNDEFINED: "q", NEVER: "n", MARGINAL: "m", FULL: "f", ULTIMATE: "u"}
REVOCATION = 0x30
CLASSES = (0x10, 0x11, 0x12, 0x13, REVOCATION)
LIMITS = {"keys": 2**18, "users": 2**20, "certs": 2**22, "text": 2**28, "trusts": 2**18}
KEY_USERS, KEY_CERTS, SCOPE, RECORD = 1024, 2**22, 255, 2**29


class Cert(NamedTuple):
    issuer: int
    kind: int
    local: bool
    made: int
    expires: int
    depth: int
    amount: int
    scope: bytes | None
    issuer_fpr: bytes | None = None  # the fingerprint that it names


class User(NamedTuple):
    kind: int  # 0 is a uid, 1 a uat
    text: bytes
    hash: bytes
    made: int
    expires: int
    revoked: bool
    certs: tuple[Cert, ...]


class Key(NamedTuple):
    fpr: bytes
    bits: int
    algo: int
    made: int
    expires: int
    revoked: bool
    caps: bytes
    users: tuple[User, ...]


class Options(NamedTuple):
    pgp: bool = True
    completes: int = 1
    marginals: int = 3
    depth: int = 5
    level: int = 2


class State(NamedTuple):
    keys: dict[int, Key]
    trusts: dict[bytes, tuple[int, bool]]  # of a fingerprint: the trust number, and whether it is disabled
    date: int = 0
    options: Options = Options()


class Row(NamedTuple):
    level: int
    trust: int
    left: int
    scope: bytes | None
    via: int | None = None  # the key that delegated to it


def opening():
    return State({}, {})


def key_id(fpr):
    return int.from_bytes(fpr[-8:] if len(fpr) == 20 else fpr[:8], "big")


def order(fpr):
    """Fingerprints rise by their length, then by their bytes."""
    return len(fpr), fpr


def is_expired(expires, date):
    return expires != 0 and expires <= date


def is_live(thing, date):
    return not thing.revoked and not is_expired(thing.expires, date)


def live_users(state, key):
    """The places of the user IDs that count."""
    return [n for n, user in enumerate(key.users) if is_live(key, state.date) and is_live(user, state.date)]


def names_another(state, cert):
    """Whether the certification names a fingerprint, and the key of its issuer's key ID has another one."""
    key = state.keys.get(cert.issuer)
    return cert.issuer_fpr is not None and key is not None and key.fpr != cert.issuer_fpr


def usable(state, user):
    """The deciding certification of each issuer, with its place, where it is usable."""
    latest = {}
    for place, cert in enumerate(user.certs):
        if cert.kind in (0x11, 0x12, 0x13) and cert.kind & 15 < state.options.level:
            continue
        if names_another(state, cert):
            continue
        if cert.issuer not in latest or latest[cert.issuer][1].made <= cert.made:
            latest[cert.issuer] = place, cert
    return [(place, cert) for place, cert in latest.values() if cert.kind != REVOCATION and not is_expired(cert.expires, state.date)]


def chain(rows, row):
    """The row, and behind it that of whoever delegated to it, and so on up: each of a lesser level."""
    found = [row]
    while row.via in rows and rows[row.via].level < row.level:
        row = rows[row.via]
        found.append(row)
    return found


def chain_admits(rows, row, text):
    """Whether each scope along the chain admits the text."""
    return all(link.scope is None or admits(link.scope, text) for link in chain(rows, row))


def candidates(state, rows, user):
    """The usable certifications by introducers, with their places."""
    def counts(cert):
        row = rows.get(cert.issuer)
        return row is not None and (not state.options.pgp or chain_admits(rows, row, user.text))
    return [(place, cert) for place, cert in usable(state, user) if counts(cert)]


def counted(state, rows, user):
    """How many candidates are ultimate, full, marginal, and anything else."""
    trusts = [rows[cert.issuer].trust for _, cert in candidates(state, rows, user)]
    known = [trusts.count(trust) for trust in (ULTIMATE, FULL, MARGINAL)]
    return (*known, len(trusts) - sum(known))


def is_full(state, count):
    return count[0] >= 1 or count[1] >= state.options.completes or count[2] >= state.options.marginals


def own_trust(state, key):
    return state.trusts.get(key.fpr, (UNKNOWN, False))[0]


def delegation(state, rows, key):
    """The latest trust signature that hands on depth, with the depth that it allows."""
    found = []
    for user in live_users(state, key):
        for place, cert in candidates(state, rows, key.users[user]):
            issuer = rows[cert.issuer]
            allowed = cert.depth if issuer.trust == ULTIMATE else min(cert.depth, issuer.left)
            if allowed >= 1:
                found.append((cert.made, user, place, allowed, cert))
    return max(found, key=lambda one: one[:3])[3:] if found and state.options.pgp else None


def given(state, rows, key, level):
    """The row that a key gets at a level, by the rows of lower levels."""
    if not any(is_full(state, counted(state, rows, key.users[n])) for n in live_users(state, key)):
        return None
    found = delegation(state, rows, key)
    if found is None:
        return Row(level, own_trust(state, key), 0, None)
    allowed, cert = found
    amount = FULL if cert.amount >= 120 else MARGINAL if cert.amount >= 60 else UNKNOWN
    return Row(level, max(own_trust(state, key), amount), allowed - 1, cert.scope, cert.issuer)


def rows_of(state):
    """The introducers' rows, level by level."""
    rows = {k: Row(0, ULTIMATE, 0, None) for k, key in state.keys.items() if is_live(key, state.date) and own_trust(state, key) == ULTIMATE}
    for level in range(1, state.options.depth):
        more = {k: given(state, rows, key, level) for k, key in state.keys.items() if k not in rows}
        more = {k: row for k, row in more.items() if row is not None}
        if not more:
            break
        rows.update(more)
    return rows


def letter(state, rows, k, user):
    """The letter of a user ID."""
    key = state.keys[k]
    if key.revoked or user.revoked:
        return "r"
    if is_expired(key.expires, state.date) or is_expired(user.expires, state.date):
        return "e"
    if k in rows and rows[k].level == 0:
        return "u"
    count = counted(state, rows, user)
    return "f" if is_full(state, count) else "m" if count[1] or count[2] else "q" if any(count) else "-"


def key_letter(state, rows, k):
    """The letter of a key: the best of its live user IDs."""
    key = state.keys[k]
    if not is_live(key, state.date):
        return "r" if key.revoked else "e"
    found = [letter(state, rows, k, key.users[n]) for n in live_users(state, key)]
    return min(found, key="ufmq-".index, default="-")


def tally(state):
    """What `check` and `sample` tell of a state before their last line: how many rows there are, and how many user IDs of each letter."""
    rows = rows_of(state)
    letters = [letter(state, rows, k, user) for k, key in state.keys.items() for user in key.users]
    return b"tally:%d:%s:\n" % (len(rows), b":".join(b"%d" % letters.count(one) for one in "ufmq-re"))


def next_check(state):
    """The least expiry behind the date, or 0."""
    things = [thing for key in state.keys.values() for user in key.users for thing in (key, user, *user.certs)]
    things += state.keys.values()
    return min((thing.expires for thing in things if thing.expires > state.date), default=0)


def introducer_rests_on(state, rows, k):
    """The keys on which an introducer rests: the candidates of its first user ID that was full over the rows of lower levels, and its delegator."""
    key, lower = state.keys[k], {other: row for other, row in rows.items() if row.level < rows[k].level}
    if rows[k].level == 0:
        return set()
    first = next(n for n in live_users(state, key) if is_full(state, counted(state, lower, key.users[n])))
    found = delegation(state, lower, key)
    return {cert.issuer for _, cert in candidates(state, lower, key.users[first])} | ({found[1].issuer} if found else set())


def direct(state, rows, k, user):
    """The candidates on which a user ID rests: none where it is not live, or its key is ultimate itself."""
    key = state.keys[k]
    rests_on_nobody = not is_live(key, state.date) or not is_live(user, state.date) or (k in rows and rows[k].level == 0)
    return set() if rests_on_nobody else {cert.issuer for _, cert in candidates(state, rows, user)}


def explanation(state, rows, k, user):
    """All keys on which a user ID rests."""
    found, new = set(), direct(state, rows, k, user)
    while new:
        found |= new
        new = set().union(*(introducer_rests_on(state, rows, other) for other in new)) - found
    return found


def cut(state, kept, k):
    """The state with the keys of an explanation and the explained one alone, and on them the certifications by keys of the explanation."""
    def cut_user(user):
        return user._replace(certs=tuple(cert for cert in user.certs if cert.issuer in kept))
    keys = {other: key._replace(users=tuple(map(cut_user, key.users))) for other, key in state.keys.items() if other in kept or other == k}
    return state._replace(keys=keys)


def printed_row(k, row):
    scope, via = quoted(row.scope or b""), b"" if row.via is None else b"%016X" % row.via
    return b"row:%016X:%d:%s:%d:%s:%s:\n" % (k, row.level, OWNER_LETTERS[row.trust].encode(), row.left, scope, via)


def why(state, rows, fpr, place):
    """The reply to `why` of a user ID by its place in its key's block."""
    k = key_id(fpr)
    key = state.keys.get(k)
    if key is None or key.fpr != fpr:
        return b"err no-such-key\n"
    if place > len(key.users):
        return b"err no-such-user\n"
    user = key.users[place - 1]
    certifiers, kept = sorted(direct(state, rows, k, user)), explanation(state, rows, k, user)
    after = cut(state, kept, k)
    count = counted(state, rows, user) if certifiers else (0, 0, 0, 0)
    head = b"why:%s:%016X:%d:%d:%d:%d:%d:\n" % (letter(state, rows, k, user).encode(), k, place, *count)
    by = (b"by:%016X:%s:\n" % (issuer, OWNER_LETTERS[rows[issuer].trust].encode()) for issuer in certifiers)
    there = letter(after, rows_of(after), k, after.keys[k].users[place - 1])
    return head + b"".join(printed_row(other, rows[other]) for other in sorted(kept)) + b"".join(by) + b"cut:%s:\nok\n" % there.encode()


def quoted(text):
    return b"".join(b"\\x%02x" % byte if byte < 0x20 or byte in b"\x7f:\\" else bytes([byte]) for byte in text)


def printed_cert(cert):
    trusts = b"%d %d" % (cert.depth, cert.amount) if cert.depth or cert.amount else b""
    record = b"rev" if cert.kind == REVOCATION else b"sig"
    scope, local = quoted(cert.scope or b""), b"l" if cert.local else b"x"
    named = b":%s:" % cert.issuer_fpr.hex().upper().encode() if cert.issuer_fpr else b""
    return b"%s:!:::%016X:%d:%s:%s:%s::%02x%s:%s\n" % (record, cert.issuer, cert.made, expiry(cert), trusts, scope, cert.kind, local, named)


def expiry(thing):
    return b"%d" % thing.expires if thing.expires else b""


def printed_key(state, rows, k, with_certs):
    key, letters = state.keys[k], key_letter(state, rows, k).encode()
    trust, disabled = state.trusts.get(key.fpr, (UNKNOWN, False))
    caps = key.caps + (b"D" if disabled else b"")
    owner = OWNER_LETTERS[trust].encode()
    yield b"pub:%s:%d:%d:%016X:%d:%s::%s:::%s:\n" % (letters, key.bits, key.algo, k, key.made, expiry(key), owner, caps)
    yield b"fpr:::::::::%s:\n" % key.fpr.hex().upper().encode()
    for user in key.users:
        kind = (b"uid", b"uat")[user.kind]
        yield b"%s:%s::::%d:%s:%s::%s:\n" % (kind, letter(state, rows, k, user).encode(), user.made, expiry(user), user.hash, quoted(user.text))
        yield from map(printed_cert, user.certs if with_certs else ())


def listed(state, with_certs=False, of=None):
    """What `list` prints of the whole keyring, or of the key of one key ID, before its last line."""
    rows, options = rows_of(state), state.options
    head = (options.pgp, state.date, next_check(state), options.marginals, options.completes, options.depth)
    lines = (line for k in (sorted(state.keys) if of is None else [of]) for line in printed_key(state, rows, k, with_certs))
    return b"tru::%d:%d:%d:%d:%d:%d\n" % head + b"".join(lines)


def sigs(state):
    """What `sigs` prints of it."""
    return listed(state, with_certs=True)


def export(state):
    """What `export` prints, before its last line."""
    entries = sorted(state.trusts.items(), key=lambda entry: order(entry[0]))
    return b"".join(b"%s:%d:\n" % (fpr.hex().upper().encode(), trust + 128 * disabled) for fpr, (trust, disabled) in entries)


def totals(keys):
    """What the limits of a keyring count, in their order."""
    users = [user for key in keys for user in key.users]
    certs = [cert for user in users for cert in user.certs]
    text = sum(len(key.caps) for key in keys) + sum(len(user.text) + len(user.hash) for user in users) + sum(len(cert.scope or b"") for cert in certs)
    return {"keys": len(keys), "users": len(users), "certs": len(certs), "text": text}


def limit_passed(state):
    """The first limit that a state passes, or nothing."""
    counts = totals(list(state.keys.values())) | {"trusts": len(state.trusts)}
    return next((name for name, limit in LIMITS.items() if counts[name] > limit), None)


def is_well_formed(key):
    """What a key of the keyring is, whatever bytes it came from."""
    seen = [(user.kind, user.text, user.hash) for user in key.users]
    certs = [cert for user in key.users for cert in user.certs]
    letters = all(bytes([byte]).isalpha() and byte != ord("D") for byte in key.caps)
    return (
        len(seen) <= KEY_USERS and len(set(seen)) == len(seen) and len(certs) <= KEY_CERTS
        and letters and all(not user.hash or user.hash.isalnum() for user in key.users)
        and not (key.revoked and any(user.revoked for user in key.users))
        and all(cert.issuer != key_id(key.fpr) and cert.kind in CLASSES for cert in certs)
    )
