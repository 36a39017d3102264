#!/usr/bin/env python3
"""Makes with gpg the keyrings on which docs/GNUPG.md says that GnuPG's letters are others, and those on which it says that they are the same.

The program reads what gpg prints as it stands. It skips where there is no gpg that can make such a keyring. Some keyrings are made packet by packet,
since gpg itself makes no such certifications; they need Python's `cryptography`.
"""
import contextlib
import os
import subprocess
import sys
import tempfile

from reference import gpg_keys, packets
from reference.gpg_keys import DAY, START, NoGnuPG, gpg, later, letters, primaries, records
from reference.program import folder, run

ULTIMATE, FULL, NEVER, UNDEFINED = 6, 5, 3, 2
# an attribute, and the text that a listing has of it: how many images, and how many bytes
IMAGE, IMAGE_TEXT = packets.image(71), "1 89"


@contextlib.contextmanager
def home():
    """A fresh folder for gpg, in which nothing was made yet."""
    with tempfile.TemporaryDirectory(prefix="wot", ignore_cleanup_errors=True) as folder:
        os.environ["GNUPGHOME"], gpg_keys.clock = folder, START
        yield
        subprocess.run(["gpgconf", "--kill", "all"], capture_output=True, check=False)


def make(count=1, expires="never", host="example.org"):
    """The fingerprints of keys that are made one after the other."""
    first = len(primaries())
    for number in range(first, first + count):
        later()
        gpg("--quick-generate-key", f"Key {number} <k{number}@{host}>", "ed25519", "cert", expires)
    return primaries()[first:]


def sign(issuer, key, *words):
    later()
    gpg(*words, "--default-key", issuer, "--quick-sign-key", key)


def trust_sign(issuer, key, value, depth, domain="", user=1):
    """A trust signature on one user ID; the value is 1 for partial and 2 for full trust."""
    later()
    gpg("-u", issuer, "--command-fd", "0", "--edit-key", key, given=f"uid {user}\ntsign\n{value}\n{depth}\n{domain}\ny\nsave\n", batch=False)


def own(**trusts):
    """Sets the ownertrust of each key, by its place in the keyring; gpg has made all of them ultimate."""
    keys = primaries()
    gpg("--import-ownertrust", given="".join(f"{key}:{trusts.get(f'key{place}', UNDEFINED)}:\n" for place, key in enumerate(keys)))


def letter(listing, number):
    """The letter of the one user ID of a key, by the key's place in the keyring, or of an attribute, by its text."""
    begin = number if isinstance(number, str) else f"Key {number} "
    return next(found for text, found in letters(listing).items() if text.startswith(begin))


def printed():
    return gpg("--with-colons", "--fixed-list-mode", "--check-sigs")


def asked_gnupg(number, date=None):
    """GnuPG's letter at a date, or now."""
    now, gpg_keys.clock = gpg_keys.clock, gpg_keys.clock if date is None else date
    gpg("--check-trustdb")
    found = letter(gpg("--with-colons", "--fixed-list-mode", "--list-keys"), number)
    gpg_keys.clock = now
    return found


def asked_program(number, date=None):
    """The program's letter at a date, or now, where it reads what gpg prints now, or why it refuses that."""
    lines = ["ownertrust", *gpg("--export-ownertrust").splitlines(), ".", f"date {gpg_keys.clock if date is None else date}"]
    done = run("\n".join([*lines, "import", *printed().split("\n"), ".", "list", ""]).encode(errors="surrogateescape"))
    if done.returncode not in (0, 1):
        sys.exit(f"differences: the program ended with {done.returncode}, and told {done.stdout[:300]}")
    told = done.stdout.decode()
    refusals = [line.split()[-1] for line in told.splitlines() if line.startswith("err ")]
    return refusals[0] if refusals else letter(told, number)


def expiring_key():
    """A key at the second of its expiry."""
    a, b = make() + make(expires="1d")
    expiry = gpg_keys.clock + DAY
    sign(a, b)
    own(key0=ULTIMATE)
    return [(asked_gnupg(1, date), asked_program(1, date)) for date in (expiry - 1, expiry, expiry + 1)]


def earlier_level():
    """A trust signature by an introducer of level 1 on a key that becomes valid by one of level 2."""
    a, b, c, d, x, y = make(6)
    trust_sign(a, b, 1, 2)
    sign(a, d)
    sign(d, c)
    trust_sign(b, x, 2, 1)
    sign(c, x)
    sign(x, y)
    own(key0=ULTIMATE, key2=FULL, key3=FULL)
    return [(asked_gnupg(5), asked_program(5))]


def last_delegation():
    """Two trust signatures, of which the later one was stored first."""
    a, b, c = make(3)
    gpg("--quick-add-uid", b, "Another user ID")
    later(2 * DAY)
    trust_sign(a, b, 2, 1, user=1)
    later(-DAY)
    trust_sign(a, b, 1, 1, user=2)
    later(2 * DAY)
    sign(b, c)
    own(key0=ULTIMATE)
    return [(asked_gnupg(2), asked_program(2))]


def scope_that_stays():
    """A trust signature for a domain, and a later one for all."""
    a, b, c = make(3)
    gpg("--quick-add-uid", b, "Another user ID")
    trust_sign(a, b, 2, 1, "example.net", user=1)
    trust_sign(a, b, 2, 1, user=2)
    sign(b, c)
    own(key0=ULTIMATE)
    return [(asked_gnupg(2), asked_program(2))]


def scope_beyond_ascii():
    """A trust signature for a domain with a letter beyond ASCII, whose bytes gpg escapes one by one."""
    a, b = make(2)
    (c,) = make(host="zoë.example")
    trust_sign(a, b, 2, 1, "zoë.example")
    sign(b, c)
    own(key0=ULTIMATE)
    return [(asked_gnupg(2), asked_program(2))]


def domain_with_a_sign():
    """A trust signature for a domain with a sign before which gpg puts a backslash, and which it then takes for the end of a word."""
    a, b, c = make(3)
    trust_sign(a, b, 2, 1, "example.org>")
    sign(b, c)
    own(key0=ULTIMATE)
    return [(asked_gnupg(2), asked_program(2))]


def made_around_a_date():
    """Two keys that are made after the date that is answered, one of which an older key certified, and the other of which certified an older one."""
    a, b = make(2)
    later(DAY)
    c, d = make(2)
    sign(a, c)
    sign(d, b)
    own(key0=ULTIMATE, key3=ULTIMATE)
    return START + DAY // 2


def key_from_the_future():
    """A key that is made after the date, and one that such a key certified."""
    date = made_around_a_date()
    return [(asked_gnupg(number, date), asked_program(number, date)) for number in (2, 1)]


def listing_of_the_past():
    """The same, where the program reads what gpg prints at that date."""
    gpg_keys.clock = made_around_a_date()
    return [(asked_gnupg(number), asked_program(number)) for number in (2, 1)]


def certification_from_the_future():
    """A certification that is made after the date, on an older key, where the program reads what gpg prints now, and what it prints at that date."""
    a, b = make(2)
    later(DAY)
    sign(a, b)
    own(key0=ULTIMATE)
    date = START + DAY // 2
    found = [(asked_gnupg(1, date), asked_program(1, date))]
    gpg_keys.clock = date
    return [*found, (asked_gnupg(1), asked_program(1))]


def signed_twice(edit):
    """A key that is signed, without an end, by this command of gpg, and again later for a day; gpg signs twice only what it has forgotten."""
    a, b = make(2)
    own(key0=ULTIMATE)
    unsigned = gpg("--armor", "--export", b)
    later()
    gpg("-u", a, "--command-fd", "0", "--edit-key", b, given=f"{edit}\ny\nsave\n", batch=False)
    signed = gpg("--armor", "--export", b)
    gpg("--delete-secret-and-public-key", b)
    gpg("--import", given=unsigned)
    sign(a, b, "--default-cert-expire", "1d")
    gpg("--import", given=signed)
    return [(asked_gnupg(1, date), asked_program(1, date)) for date in (gpg_keys.clock + DAY - 1, gpg_keys.clock + DAY)]


def certification_that_cannot_be_revoked():
    """A certification that can't be revoked, and a later one that expires."""
    return signed_twice("nrsign")


def older_certification():
    """A certification, and a later one that expires."""
    return signed_twice("sign")


def next_check():
    """A key that expires, and that nobody certifies: whether a check is due."""
    make(expires="1d")
    own()
    gpg("--check-trustdb")
    listing = printed()
    told = run("\n".join([f"date {gpg_keys.clock}", "import", *listing.splitlines(), ".", "list", ""])).stdout.decode()
    due = [[fields[4] for fields in records(text) if fields[0] == "tru"] for text in (listing, told)]
    return [tuple("no" if date == ["0"] else "yes" for date in due)]


def ownertrust_field():
    """A key with a trust signature and without ownertrust: field 9 of its record."""
    a, b = make(2)
    trust_sign(a, b, 2, 1)
    gpg("--import-ownertrust", given=f"{a}:{ULTIMATE}:\n{b}:{UNDEFINED}:\n")
    gpg("--check-trustdb")
    listing = printed()
    told = run("\n".join(["import", *listing.splitlines(), ".", "list", ""])).stdout.decode()
    fields = [[found[8] for found in records(text) if found[0] == "pub" and found[4] == b[-16:]] for text in (listing, told)]
    return [(*fields[0], *fields[1])]


def deleted_key():
    """A key that gpg deleted, over a store that was made before: its letter, and its ownertrust."""
    a, b = make(2)
    sign(a, b)
    own(key0=ULTIMATE, key1=FULL)
    with folder() as store:
        for _ in range(2):
            run("\n".join(["ownertrust", *gpg("--export-ownertrust").splitlines(), ".", "import", *printed().splitlines(), ".", ""]), where=store)
            if b in primaries():
                gpg("--delete-secret-and-public-key", b)
        listed, exported = (run(f"{command}\n", where=store).stdout.decode() for command in ("list", "export"))
    there = "Key 1 " in printed(), b in gpg("--export-ownertrust")
    return [("there" if there[0] else "gone", letter(listed, 1)), ("there" if there[1] else "gone", "f" if f"{b}:{FULL}:" in exported else "gone")]


def expiring_certification():
    """A certification at the second of its expiry."""
    a, b = make(2)
    sign(a, b, "--default-cert-expire", "1d")
    expiry = gpg_keys.clock + DAY
    own(key0=ULTIMATE)
    return [(asked_gnupg(1, date), asked_program(1, date)) for date in (expiry - 1, expiry)]


def revocation_of_the_same_second():
    """A certification and its revocation of one second; gpg stores the revocation first."""
    a, b = make(2)
    sign(a, b)
    gpg("--command-fd", "0", "--edit-key", b, given="revsig\nn\ny\ny\n0\n\ny\nsave\n", batch=False)
    if not any(fields[0] == "rev" for fields in records(printed())):
        raise NoGnuPG("no certification was revoked")
    own(key0=ULTIMATE)
    return [(asked_gnupg(1), asked_program(1))]


def never_lifted():
    """A trust signature on a key of the ownertrust never."""
    a, b, c = make(3)
    trust_sign(a, b, 2, 1)
    sign(b, c)
    own(key0=ULTIMATE, key1=NEVER)
    return [(asked_gnupg(2), asked_program(2))]


def expired_owner():
    """An ultimately trusted key that is expired."""
    a, b = make(expires="1d") + make()
    sign(a, b)
    own(key0=ULTIMATE)
    later(3 * DAY)
    return [(asked_gnupg(1), asked_program(1))]


def revoked_owner():
    """An ultimately trusted key that is revoked; gpg takes the ownertrust of such a key away, and is given it again."""
    a, b = make(2)
    sign(a, b)
    with open(os.path.join(os.environ["GNUPGHOME"], "openpgp-revocs.d", a + ".rev"), encoding="utf-8") as file:
        later()
        gpg("--import", given=file.read().replace(":-----BEGIN", "-----BEGIN"))
    own(key0=ULTIMATE)
    return [(asked_gnupg(1), asked_program(1))]


def chain(domain, host):
    """An introducer who is trusted for a domain by one who is trusted for another: the letter of a user ID that the former certifies."""
    a, b, c = make(3)
    (d,) = make(host=host)
    trust_sign(a, b, 2, 2, "example.org")
    trust_sign(b, c, 2, 1, domain)
    sign(c, d)
    own(key0=ULTIMATE)
    return [(asked_gnupg(3), asked_program(3))]


def chain_beyond():
    """An introducer who is trusted for a domain that his own introducer is not trusted for."""
    return chain("example.net", "example.net")


def chain_within():
    """An introducer who is trusted for a part of his introducer's domain, and a user ID in that part."""
    return chain("lists.example.org", "lists.example.org")


def chain_in_the_first_alone():
    """The same, and a user ID in the rest of the domain."""
    return chain("lists.example.org", "example.org")


def hand_made(users, made, dates=(None,)):
    """Both letters of the last key of some, which are made packet by packet, at each date, or now; the first is ultimately trusted."""
    if packets.Ed25519PrivateKey is None:
        raise NoGnuPG("no cryptography for Python")
    keys = [packets.Key(b"%d" % number, user) for number, user in enumerate(users)]
    with tempfile.NamedTemporaryFile() as file:
        file.write(b"".join(key.block(*made(keys, key)) for key in keys))
        file.flush()
        gpg("--import", file.name)
    gpg("--import-ownertrust", given=f"{keys[0].fingerprint.hex().upper()}:{ULTIMATE}:\n")
    last = IMAGE_TEXT if users[-1] == IMAGE else len(keys) - 1
    return [(asked_gnupg(last, date), asked_program(last, date)) for date in dates]


def fingerprint_of_no_key():
    """A certification that names a fingerprint of which the keyring has no key, and whose key ID is that of its issuer."""
    def made(keys, key):
        return [key.signature(keys[0], named=bytes(12) + keys[0].fingerprint[-8:])] if key is keys[1] else []
    return hand_made(["Key 0 <a>", "Key 1 <b>"], made)


def fingerprint_of_another():
    """A certification that names the fingerprint of another key that is there: gpg checks it with that key, and marks it as bad."""
    def made(keys, key):
        return [key.signature(keys[0], named=keys[1].fingerprint)] if key is keys[2] else []
    return hand_made(["Key 0 <a>", "Key 1 <b>", "Key 2 <c>"], made)


def own_fingerprint():
    """A certification that names its issuer's fingerprint."""
    def made(keys, key):
        return [key.signature(keys[0])] if key is keys[1] else []
    return hand_made(["Key 0 <a>", "Key 1 <b>"], made)


def revoked(more, dates=(None,)):
    """A certification with this, and a later revocation of it, which gpg doesn't make where it can't be revoked."""
    def made(keys, key):
        return [key.signature(keys[0], more=more), key.signature(keys[0], 0x30, packets.MADE + 1)] if key is keys[1] else []
    return hand_made(["Key 0 <a>", "Key 1 <b>"], made, dates)


def revocation_of_what_cannot_be_revoked():
    """A certification that can't be revoked and that expires, and a later revocation of it."""
    expiry = START + DAY
    return revoked(packets.NON_REVOCABLE + packets.expiring(expiry - packets.MADE), (expiry - 1, expiry))


def revocation():
    """A certification, and a later revocation of it."""
    return revoked(b"")


def scoped(expression, *users):
    """Both letters of these user IDs, each certified by an introducer with this scope."""
    def made(keys, key):
        if key is keys[1]:
            return [key.signature(keys[0], more=packets.trust_signature(1, 120, expression))]
        return [key.signature(keys[1])] if key is keys[2] else []
    found = []
    for user in users:
        with home():
            found += hand_made(["Key 0 <a>", "Key 1 <b>", user if user == IMAGE else f"Key 2 {user}"], made)
    return found


def expressions():
    """Regular expressions that gpg does not write, each with a user ID that matches it and one that doesn't."""
    return [
        *scoped(r"@(a|b)\.org>", "<c@b.org>", "<c@c.org>"), *scoped(r"\.example\.com$", "c@lists.example.com", "<c@lists.example.com>"),
        *scoped(".*", "<c@example.org>"), *scoped("^key 2", "<c@example.org>"), *scoped(r"<[^>]+[@.].*\.org>$", "<c@example.org>"),
        *scoped("(x", "(x <c@example.org>"),
    ]


def unescaped_dot():
    """A domain whose dot is not escaped."""
    return scoped("<[^>]+[@.]example.org>$", "<c@example.org>", "<c@exampleXorg>", "<c@example.net>")


def dots_beyond_ascii():
    """A letter of two bytes in place of one dot, and of two."""
    return [*scoped(r"<[^>]+[@.]zo.\.example>$", "<c@zoë.example>"), *scoped(r"<[^>]+[@.]zo..\.example>$", "<c@zoë.example>")]


def case_beyond_ascii():
    """A letter beyond ASCII in the other case."""
    return scoped(r"<[^>]+[@.]zoë\.example>$", "<c@ZOË.example>")


def unescaped_beyond_ascii():
    """A letter beyond ASCII whose bytes are not escaped."""
    return scoped(r"<[^>]+[@.]zoë\.example>$", "<c@zoë.example>")


def escaped_signs():
    """Backslashes by which GnuPG means the start or the end of a word, or a digit, each with what it admits there, and what it admits here."""
    return [
        *scoped(r"<[^>]+[@.]\<example\.org>$", "<c@example.org>", "<c@<example.org>"),
        *scoped(r"<[^>]+[@.]example\.org\>>$", "<c@example.org>", "<c@example.org>>"),
        *scoped(r"<[^>]+[@.]example\d\.org>$", "<c@example1.org>", "<c@exampled.org>"),
    ]


def long_of(size):
    """An expression of so many bytes, and a user ID that has them."""
    return scoped("x" * size, "x" * size + " <c@example.org>")


def long_expression():
    """An expression of 256 bytes."""
    return long_of(256)


def longest_expression():
    """An expression of 255 bytes."""
    return long_of(255)


def attribute():
    """An attribute, and scopes that are words of the text of one of both."""
    return [*scoped("jpeg image of size 71", IMAGE), *scoped("1 89", IMAGE)]


def attribute_in_a_domain():
    """An attribute, and a scope in gpg's form."""
    return scoped(r"<[^>]+[@.]example\.org>$", IMAGE)


# what is compared, and what GnuPG and the program answer, each at one date or at some
DIFFERENT = {
    expiring_key: [("f", "f"), ("f", "e"), ("e", "e")],
    earlier_level: [("q", "f")],
    last_delegation: [("m", "f")],
    scope_that_stays: [("-", "f")],
    scope_beyond_ascii: [("-", "f")],
    domain_with_a_sign: [("f", "-")],
    key_from_the_future: [("-", "f"), ("-", "f")],
    next_check: [("no", "yes")],
    ownertrust_field: [("f", "-")],
    deleted_key: [("gone", "f"), ("gone", "f")],
    certification_that_cannot_be_revoked: [("f", "f"), ("f", "-")],
    chain_beyond: [("f", "-")],
    fingerprint_of_no_key: [("f", "-")],
    revocation_of_what_cannot_be_revoked: [("f", "-"), ("-", "-")],
    expressions: [("-", "f"), ("-", "-"), ("-", "f"), ("-", "-"), ("-", "f"), ("-", "f"), ("-", "f"), ("f", "-")],
    dots_beyond_ascii: [("f", "-"), ("-", "f")],
    case_beyond_ascii: [("f", "-")],
    escaped_signs: [("f", "-"), ("-", "f"), ("f", "-"), ("-", "f"), ("f", "-"), ("-", "f")],
    long_expression: [("f", "LimitReached")],
    attribute: [("f", "-"), ("-", "f")],
}
SAME = {
    expiring_certification: [("f", "f"), ("-", "-")],
    older_certification: [("f", "f"), ("-", "-")],
    revocation_of_the_same_second: [("f", "f")],
    never_lifted: [("f", "f")],
    expired_owner: [("-", "-")],
    revoked_owner: [("-", "-")],
    listing_of_the_past: [("-", "-"), ("-", "-")],
    certification_from_the_future: [("f", "f"), ("f", "f")],
    chain_within: [("f", "f")],
    chain_in_the_first_alone: [("-", "-")],
    own_fingerprint: [("f", "f")],
    fingerprint_of_another: [("-", "-")],
    revocation: [("-", "-")],
    unescaped_dot: [("f", "f"), ("f", "f"), ("-", "-")],
    unescaped_beyond_ascii: [("f", "f")],
    longest_expression: [("f", "f")],
    attribute_in_a_domain: [("-", "-")],
}

if __name__ == "__main__":
    try:
        for compare, wanted in {**DIFFERENT, **SAME}.items():
            with home():
                found = compare()
            if found != wanted:
                sys.exit(f"differences: {compare.__doc__} GnuPG and the program answer {found} in place of {wanted}")
    except NoGnuPG as fault:
        print(f"differences: skipped: {fault}")
    else:
        print(f"differences: {len(DIFFERENT)} as they are told, and {len(SAME)} cases that are shared")
