"""Explanations for people: on whom a letter rests, what is missing for a better one, and what the programs beside `wot` share.

A key's letter, and the introducers with their level and trust, come from the program. What it does not print, which certifications
made an introducer one, is counted here again on these introducers alone, by the rules of docs/RULES.md.
"""
import collections
import contextlib
import os
import re
import stat

import wot
from wot import day, moment, next_check  # noqa: F401 # pylint: disable=unused-import

REVOCATION = 0x30
# above so many introducers only those are shown that are enough
MANY = 20
TRUSTED = {
    "u": "ultimately trusted", "f": "fully trusted", "m": "marginally trusted", "n": "never trusted", "q": "of undefined trust", "-": "of unknown trust",
}
COUNTS = "ufm"
# the letters before and after, also of a user ID that wasn't there, or no longer is
LABELS = {**wot.LABELS, "new": "[  new   ]", "gone": "[  gone  ]"}


def read_letters(path):
    """The letters that a run of `wot-nightly` told, by fingerprint and quoted text."""
    with open(path, encoding="utf-8", errors="surrogateescape", newline="\n") as file:
        lines = [line.rstrip("\n").split(" ", 2) for line in file]
    return {(fingerprint, text): letter for letter, fingerprint, text in lines}


def named(key, user):
    """A user ID by its key's fingerprint and its quoted text, which stay where its place may not."""
    return key.fingerprint, wot.quoted(user.text)


def word(letter):
    """A letter of validity as a word."""
    return wot.LABELS[letter].strip("[ ]")


def is_live(user):
    return user.letter not in "re"


def domain(scope):
    """The domain of a regular expression of the form that gpg writes, or nothing."""
    found = re.fullmatch(r"<\[\^>\]\+\[@\.\]((?:[A-Za-z0-9_-]|\\[^A-Za-z0-9])+)>\$", scope, re.S)
    return found and re.sub(r"\\(.)", r"\1", found[1], flags=re.S)


def admits(scope, text):
    """Whether a user ID of this text is in the scope."""
    wanted = domain(scope)
    if wanted is None:
        return scope == ""
    pattern = rb"<[^>]+[@.]" + re.escape(wanted.encode(errors="surrogateescape")) + rb">\Z"
    return re.search(pattern, text.encode(errors="surrogateescape"), re.I | re.S) is not None


def scope_in_words(scope):
    wanted = domain(scope)
    return "nobody, by a scope of another form" if wanted is None else f"{wot.shown(wanted)} alone"


def time_of(cert):
    """When a certification was made, and until when it counts."""
    return day(cert.made) + (f" until {day(cert.expires)}" if cert.expires else "")


class People:
    """The keys of a store by key ID, with the names that people know them by.

    They are those of a keyring with its certifications, or of a listing of an open store, which is asked for the certifications on a key where
    these are needed: so of many keys few become values.
    """

    def __init__(self, keys, min_cert_level=2, store=None):
        self.level, self.store, self.listing = min_cert_level, store, None
        if store is None:
            self.keyring, self.known = keys, {key.key_id: key for key in keys.keys}
            texts = collections.Counter(user.text for key in keys.keys for user in key.users)
            self.is_shared = lambda text: texts[text] > 1
        else:
            self.keyring, self.known, self.listing = keys.head, {}, keys
            self.is_shared = keys.is_repeated
        self.heads, self.names = dict(self.known), {}

    def head(self, key_id):
        """A key, perhaps without its certifications, or nothing."""
        if key_id not in self.heads and self.listing is not None:
            self.heads[key_id] = self.listing.by_key_id(key_id)
        return self.heads.get(key_id)

    def key(self, key_id):
        """A key with its certifications, or nothing."""
        if key_id not in self.known and self.head(key_id) is not None:
            self.known[key_id] = next(iter(self.store.listing(self.heads[key_id].fingerprint, certifications=True)))
        return self.known.get(key_id)

    def name(self, key_id):
        """The name of a key, with its key ID where the name alone would not tell which it is."""
        if key_id not in self.names:
            key = self.head(key_id)
            user = None if key is None else first_user(key)
            if user is None:
                self.names[key_id] = f"the key {key_id}"
            else:
                self.names[key_id] = f"{user.shown} ({key_id})" if self.is_shared(user.text) else user.shown
        return self.names[key_id]

    def find(self, wanted):
        """The user IDs, each a key and a place, of a fingerprint, a key ID, an address, or a part of a text."""
        keys = self.keyring.keys if self.listing is None else self.listing.maybe(wanted)
        return [(self.key(key.key_id), place) for key, place in wot.matching(keys, wanted)]

    def names_another(self, cert):
        """Whether a certification names a fingerprint that the key of its issuer's key ID doesn't have."""
        key = self.head(cert.issuer) if cert.fingerprint else None
        return key is not None and key.fingerprint != cert.fingerprint

    def deciding(self, user):
        """The certification of each issuer that decides on a user ID."""
        latest = {}
        for cert in user.certifications:
            if cert.kind in (0x11, 0x12, 0x13) and cert.kind - 0x10 < self.level or self.names_another(cert):
                continue
            if cert.issuer not in latest or latest[cert.issuer].made <= cert.made:
                latest[cert.issuer] = cert
        return latest

    def is_usable(self, cert):
        return cert.kind != REVOCATION and not 0 < cert.expires <= self.keyring.date

    def candidates(self, user, rows):
        """The usable certifications on a user ID by these introducers."""
        return {
            issuer: cert for issuer, cert in self.deciding(user).items()
            if issuer in rows and self.is_usable(cert) and all(admits(row.scope, user.text) for _, row in chain(issuer, rows))
        }

    def are_enough(self, trusts):
        return "u" in trusts or trusts.count("f") >= self.keyring.completes or trusts.count("m") >= self.keyring.marginals

    def certifiers(self, key_id, rows):
        """By whom a key is an introducer, with the certification of each: those who certify its first user ID that is full over the rows of lower levels."""
        lower = {k: row for k, row in rows.items() if row.level < rows[key_id].level}
        found = [self.candidates(user, lower) for user in self.key(key_id).users if is_live(user)]
        full = (certs for certs in found if self.are_enough([rows[issuer].trust for issuer in certs]))
        return next(full, {issuer: cert for certs in found for issuer, cert in certs.items()})

    def delegation(self, key_id, rows):
        """The trust signature that makes a key trusted, or nothing."""
        best = None
        lower = {k: row for k, row in rows.items() if row.level < rows[key_id].level}
        for user in filter(is_live, self.key(key_id).users):
            certs = self.candidates(user, lower)
            for cert in sorted(certs.values(), key=user.certifications.index):
                issuer = rows[cert.issuer]
                allowed = cert.depth if issuer.trust == "u" else min(cert.depth, issuer.left)
                if allowed >= 1 and (best is None or best.made <= cert.made):
                    best = cert
        return best if self.keyring.is_pgp else None


def chain(key_id, rows):
    """An introducer, and by whose delegation each introduces in turn, with their rows."""
    while key_id in rows:
        row = rows[key_id]
        yield key_id, row
        is_below = row.via in rows and rows[row.via].level < row.level
        key_id = row.via if is_below else None


def first_user(key):
    """The first of the user IDs that are best, or nothing."""
    letter = wot.best(user.letter for user in key.users)
    return next((user for user in key.users if user.letter == letter), None)


class Explained:
    """The reply to a `why`, and who certifies whom in it."""

    def __init__(self, people, why):
        self.people, self.why = people, why
        self.key = people.key(why.key_id)
        self.user = self.key.users[why.place - 1]
        deciding = people.deciding(self.user)
        # of each key, the explained one as None: who certified it, who made the trust signature, and whom it needs at least
        self.certifiers, self.trusted_by, self.support = {None: {issuer: deciding.get(issuer) for issuer in why.by}}, {}, {}
        for key_id in sorted(why.rows, key=lambda k: why.rows[k].level):
            if why.rows[key_id].level > 0:
                self.certifiers[key_id] = people.certifiers(key_id, why.rows)
                self.trusted_by[key_id] = people.delegation(key_id, why.rows)
            self.support[key_id] = {key_id}.union(*(self.support[k] for k in self.few(key_id)))

    def counts(self, key_id):
        return self.why.rows[key_id].trust in COUNTS

    def above(self, key_id):
        """All who count for a key, with the certification of each."""
        return self.with_delegation(key_id, {k: cert for k, cert in self.certifiers.get(key_id, {}).items() if self.counts(k)})

    def with_delegation(self, key_id, certifiers):
        cert = self.trusted_by.get(key_id)
        return certifiers if cert is None or cert.issuer in certifiers else {**certifiers, cert.issuer: cert}

    def few(self, key_id):
        """The fewest of them that are enough, and of those the ones that need the fewest others."""
        choices, certifiers = [], self.certifiers.get(key_id, {})
        for trust, needed in (("u", 1), ("f", self.people.keyring.completes), ("m", self.people.keyring.marginals)):
            those = sorted((k for k in certifiers if self.why.rows[k].trust == trust), key=lambda k: (len(self.support[k]), k))
            if len(those) >= needed:
                choices.append(those[:needed])
        chosen = min(choices, key=lambda those: (len(those), len(set().union(*(self.support[k] for k in those)))), default=list(certifiers))
        return self.with_delegation(key_id, {k: certifiers[k] for k in chosen})

    def shown(self):
        """The introducers to be drawn, with the explained key as None: those who count for it, and for these, and so on."""
        found, left = set(), [None]
        while left:
            key_id = left.pop()
            if key_id not in found:
                found.add(key_id)
                left += self.above(key_id)
        return found

    def lines(self, whole=False, store=None):
        """The explanation as lines; where it has many introducers only those that are enough, unless the whole is wanted."""
        key, user = self.key, self.user
        yield f"{wot.LABELS[user.letter]} {user.shown} {key.fingerprint}{' [disabled]' if key.is_disabled else ''}"
        if user.letter == "u":
            yield "  its key is ultimately trusted itself"
        elif not is_live(user):
            ends = [thing.expires for thing in (key, user) if 0 < thing.expires <= self.people.keyring.date]
            yield f"  it, or its key, {'was revoked' if user.letter == 'r' else f'expired on {day(min(ends))}'}, whoever certified it"
        else:
            cut = len(self.why.rows) > MANY and not whole
            if cut:
                yield f"  rests on {len(self.why.rows)} introducers; of those who certify a key the fewest are shown that are enough"
            yield from self.below(None, 1, set(), cut)
            yield from self.missing()
            if store is not None and (whole or user.letter not in wot.VALID):
                yield from Reasons(self, store).lines()

    def below(self, key_id, depth, told, cut):
        above, certifiers = self.above(key_id), self.certifiers.get(key_id, {})
        shown = {k: cert for k, cert in self.few(key_id).items() if k in above} if cut else above
        for certifier in sorted(shown, key=lambda k: COUNTS.find(self.why.rows[k].trust) % 4):
            seen = certifier in told and certifier in self.certifiers
            yield f"{'  ' * depth}{self.certified(certifier, shown[certifier])}, {self.standing(certifier)}{', as told above' if seen else ''}"
            if not seen:
                told.add(certifier)
                yield from self.below(certifier, depth + 1, told, cut)
        if len(above) > len(shown):
            yield f"{'  ' * depth}and by {len(above) - len(shown)} more who count"
        for_nothing = [k for k in certifiers if not self.counts(k)]
        for certifier in for_nothing[:0 if cut else None]:
            yield f"{'  ' * depth}{self.certified(certifier, certifiers[certifier])}, who counts for nothing: {TRUSTED[self.why.rows[certifier].trust]}"
        if cut and for_nothing:
            yield f"{'  ' * depth}and by {len(for_nothing)} who count for nothing"

    def certified(self, issuer, cert):
        """That somebody certified, and when; where the store has another min-cert-level it may not be known when."""
        return f"certified {'' if cert is None else f'on {time_of(cert)} '}by {self.people.name(issuer)}"

    def standing(self, key_id):
        """How far an introducer is trusted, by whom, and for whom."""
        (_, row), *others = chain(key_id, self.why.rows)
        delegation = self.trusted_by.get(key_id)
        text = TRUSTED[row.trust]
        if delegation is not None:
            text += f" by a trust signature of {self.people.name(delegation.issuer)} of {time_of(delegation)}"
        if row.scope:
            text += f", for {scope_in_words(row.scope)}"
        for other, delegator in others:
            if delegator.scope:
                text += f", delegated by {self.people.name(other)}, who is trusted for {scope_in_words(delegator.scope)}"
        return text

    def missing(self):
        """What the user ID has of what makes it full."""
        if self.user.letter not in wot.VALID:
            full, marginal = self.why.counts[1:3]
            yield f"  missing for full: {full} of {self.people.keyring.completes} full, {marginal} of {self.people.keyring.marginals} marginal"


class Reasons:
    """Why certifications of a user ID don't count."""

    def __init__(self, explained, store):
        self.explained, self.people, self.store = explained, explained.people, store

    def lines(self):
        """A line for each issuer who isn't told of above."""
        user, why = self.explained.user, self.explained.why
        deciding = self.people.deciding(user)
        latest = {cert.issuer: cert for cert in user.certifications}
        for issuer, last in latest.items():
            if issuer not in why.by:
                cert = deciding.get(issuer, last)
                yield f"  {self.explained.certified(issuer, cert)}, which doesn't count: {self.reason(issuer, cert, issuer in deciding)}"
        if not latest:
            yield "  no key certified it, or gpg could check no certification of it"

    def reason(self, issuer, cert, is_deciding):
        if not is_deciding and self.people.names_another(cert):
            return f"it names another key, {cert.fingerprint}"
        if not is_deciding:
            return f"it is of a class below min-cert-level {self.people.level}"
        if cert.kind == REVOCATION:
            return f"it was taken back on {day(cert.made)}"
        if not self.people.is_usable(cert):
            return f"it expired on {day(cert.expires)}"
        return self.whose_key(issuer)

    def whose_key(self, issuer):
        """Why a key does not introduce, or not this user ID."""
        key, depth = self.people.head(issuer), self.people.keyring.depth
        if key is None:
            return "its key is not in the store"
        if key.letter in "re":
            return f"no introducer: its key is {word(key.letter)}"
        if key.letter not in wot.VALID:
            return f"no introducer: its own key is not valid, {wot.LABELS[key.letter]}"
        level, rows = self.level_of(key)
        if level >= depth:
            return f"too deep: it is {level} steps away from a key of yours, and introducers may be {depth - 1} (max-cert-depth {depth})"
        return self.outside(issuer, rows)

    def outside(self, issuer, rows):
        """Whose scope, its own or that of one who delegated to it, does not admit the user ID."""
        text = self.explained.user.text
        for key_id, row in chain(issuer, rows):
            if not admits(row.scope, text):
                whose = "its scope: it is" if key_id == issuer else f"the scope of who delegated to it: {self.people.name(key_id)} is"
                return f"outside {whose} trusted for {scope_in_words(row.scope)}"
        return f"no introducer of it, as far as can be told by min-cert-level {self.people.level}: if the store has another, give it by --min-cert-level"

    def level_of(self, key):
        """The level on which a valid key stands, or would stand, one above the least on which its certifiers are enough; and the rows with its own."""
        whys = [self.store.why(key.fingerprint, place) for place, user in enumerate(key.users, 1) if is_live(user)]
        rows = {key_id: row for why in whys for key_id, row in why.rows.items()}
        levels = [level for why in whys for level in self.enough_at([rows[issuer] for issuer in why.by])]
        level = min(levels, default=-1) + 1
        rows[key.key_id] = wot.Row(level, "", 0, "")
        cert = self.people.delegation(key.key_id, rows)
        if cert is not None:
            # a program that does not tell who delegated has no chains of scopes either
            via = cert.issuer if any(row.via is not None for row in rows.values()) else None
            rows[key.key_id] = wot.Row(level, "", 0, cert.scope, via)
        return level, rows

    def enough_at(self, rows):
        """The levels from which on these introducers are enough."""
        return [row.level for row in rows if self.people.are_enough([other.trust for other in rows if other.level <= row.level])]


def explanation(store, people, key, place, whole=False):
    """The lines of an explanation, asked of an open store; the people know its certifications."""
    return list(Explained(people, store.why(key.fingerprint, place)).lines(whole, store))


class Output:
    """A file that is replaced whole, by `put`, or stays as it was. It keeps its mode; a link stays, and what it leads to is replaced; and
    what is there and is no file, as a device or a fifo, is written into.
    """

    def __init__(self, path):
        self.path, self.file, self.new = path, None, None
        try:
            self.former = os.stat(path)
        except FileNotFoundError:
            self.former = None
        if self.former is not None and stat.S_ISDIR(self.former.st_mode):
            raise wot.WotError(f"{path}: is a folder")
        if not os.path.isdir(os.path.dirname(os.path.realpath(path))):
            raise wot.WotError(f"{path}: its folder isn't there")

    @property
    def is_replaced(self):
        """Whether a file takes its place; a descriptor's name, as /dev/stdout, stands for what is open there."""
        if self.former is None:
            return True
        path = os.path.join(os.path.realpath(os.path.dirname(self.path) or "."), os.path.basename(self.path))
        while os.path.islink(path) and not path.startswith("/proc/"):
            path = os.path.join(os.path.dirname(path), os.readlink(path))
            path = os.path.join(os.path.realpath(os.path.dirname(path)), os.path.basename(path))
        return stat.S_ISREG(self.former.st_mode) and not path.startswith("/proc/")

    def __enter__(self):
        if self.is_replaced:
            self.path = os.path.realpath(self.path)
            self.new = f"{self.path}.{os.getpid()}.new"
            self.file = open(os.open(self.new, os.O_RDWR | os.O_CREAT | os.O_EXCL, 0o666), "w+b")
        else:
            import tempfile  # pylint: disable=import-outside-toplevel
            self.file = tempfile.TemporaryFile()  # pylint: disable=consider-using-with
        return self

    def __exit__(self, *_):
        self.file.close()
        if self.new is not None and os.path.exists(self.new):
            os.unlink(self.new)

    def put(self):
        """Puts what was written to the file in place."""
        try:
            self.put_in_place()
        except OSError as fault:
            # a write tells no name
            raise wot.WotError(f"{self.path}: {fault.strerror}") from fault

    def put_in_place(self):
        self.file.flush()
        if self.new is None:
            import shutil  # pylint: disable=import-outside-toplevel
            self.file.seek(0)
            with open(self.path, "ab" if stat.S_ISREG(self.former.st_mode) else "wb") as there:
                shutil.copyfileobj(self.file, there)
            return
        if self.former is not None:
            with contextlib.suppress(PermissionError):
                os.fchown(self.file.fileno(), self.former.st_uid, self.former.st_gid)
            os.fchmod(self.file.fileno(), stat.S_IMODE(self.former.st_mode))
        os.fsync(self.file.fileno())
        os.replace(self.new, self.path)


def nobody(wanted):
    """What to say where a name finds nobody."""
    digits, text = wot.digits_of(wanted), wot.shown(wanted)
    if digits is not None:
        what = "key ID" if len(digits) == 16 else "fingerprint"
        return f"no key of this {what}: {text}; a subkey's is not kept here, gpg -k {digits} shows its primary key"
    if re.fullmatch("(0x)?[0-9A-Fa-f]{8}", wanted):
        return f"nobody of that name: {text}; a key ID of 8 digits is not looked for, as many keys can have it: gpg -k {text} shows the fingerprint"
    return f"nobody of that name: {text}"


def warn_if_stale(name, keyring, max_age):
    """One line for people where the letters may be others now; whether there is one."""
    reason = keyring.staleness(max_age)
    if reason is not None:
        wot.tell(f"{name}: {reason}")
    return reason is not None
