"""GnuPG's own check of a keyring beside the program on what GnuPG prints of it. The keys are made here, packet by packet."""
import os
import shutil
import subprocess
import sys
import tempfile

import keyrings
from measure import HERE, Failed, in_turn, ran, session, shown, table

sys.path.append(os.path.join(HERE, "..", "tests", "reference"))
import packets

KEYS, CERTS = 1_000, 4


def keyring(path, keys):
    """The keys with the certifications on them, in a file."""
    with open(path, "wb") as file:
        for place, key in enumerate(keys):
            file.write(key.block(*(key.signature(keys[issuer], 0x10, made) for issuer, made in keyrings.certifications(place, CERTS))))


def gpg(*words, told=None, given=None):
    return ran(["gpg", "--batch", "--yes", "--quiet", *words], given, told=told)


def letters(path):
    """The letter of each user ID of a listing, by its text."""
    with open(path, encoding="utf-8") as file:
        return {f[9]: f[1] for f in (line.split(":") for line in file) if f[0] == "uid"}


def prepared(bench):
    """A keyring of gpg with its ownertrust, and the listing that gpg prints of it; the seconds of printing it."""
    keys = [packets.Key(b"%d" % place, keyrings.user(place)) for place in range(KEYS)]
    keyring(bench.path("keys"), keys)
    with open(bench.path("trusts"), "w", encoding="ascii") as file:
        for place, key in enumerate(keys):
            file.write(f"{key.fingerprint.hex().upper()}:{6 if place == 0 else (5, 4, 4)[place % 3]}:\n")
    gpg("--import", bench.path("keys"))
    gpg("--import-ownertrust", bench.path("trusts"))
    return gpg("--with-colons", "--fixed-list-mode", "--check-sigs", told=bench.path("checked"))


def compared(bench):
    """Times gpg and the program on one keyring; their letters must be the same."""
    listed = prepared(bench)
    steps = [(["ownertrust"], bench.path("trusts"))]
    checking, importing = in_turn(
        lambda: gpg("--check-trustdb"),
        lambda: ran([bench.program, "import"], bench.path("checked"), bench.store("gnupg", *steps)),
    )
    where = bench.store("gnupg", *steps, (["import"], bench.path("checked")))
    listing = in_turn(
        lambda: gpg("--with-colons", "--fixed-list-mode", "--list-keys", told=bench.path("theirs")),
        lambda: ran([bench.program, "list"], where=where, told=bench.path("ours")),
    )
    with session([bench.program], where) as program:
        date = min(program.accept(f"date {date}\n") for date in (1700000000, 1750000000, 1700000000))
    theirs, ours = letters(bench.path("theirs")), letters(bench.path("ours"))
    if theirs != ours:
        raise Failed(f"gpg has other letters: {[(t, theirs[t], ours.get(t)) for t in theirs if theirs[t] != ours.get(t)][:5]}")
    rows = [
        ("`gpg --check-trustdb`, and `date` in an open session", shown(checking), shown(date)),
        ("`gpg --check-sigs`, and `wot import` of what it prints", shown(listed), shown(importing)),
        ("`gpg --list-keys`, and `wot list`", *map(shown, listing)),
    ]
    table(f"GnuPG's own keyring of {KEYS:,} keys, {sum(x in 'fu' for x in ours.values())} of them valid for both", ("", "gpg", "wot"), rows)


def part(bench):
    """GnuPG beside the program, where there is a gpg and its keys can be signed here."""
    if shutil.which("gpg") is None or packets.Ed25519PrivateKey is None:
        print("\ngnupg: skipped: it wants gpg and Python's package cryptography")
        return
    with tempfile.TemporaryDirectory(prefix="wot", ignore_cleanup_errors=True) as home:
        os.environ["GNUPGHOME"] = home
        try:
            compared(bench)
        finally:
            subprocess.run(["gpgconf", "--kill", "all"], capture_output=True, check=False)
