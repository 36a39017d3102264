#!/usr/bin/env python3
"""Compares the letters that the built program gives with GnuPG's own, over keyrings that gpg makes for it.

The program reads what gpg prints as it stands. It skips where there is no gpg that can make such a keyring.
"""
import os
import random
import subprocess
import sys
import tempfile

from reference import gpg_keys
from reference.gpg_keys import DAY, NoGnuPG, gpg, later, letters, primaries
from reference.program import run

KEYS, CERTIFICATIONS, ROUNDS = 10, 24, 20
NUMBERS = [2, 3, 4, 4, 5, 5, 6]


def made(count, usage="cert", expires="never"):
    for number in range(count):
        later()
        gpg("--quick-generate-key", f"Key {number} <k{number}@example.org>", "ed25519", usage, expires)
    return primaries()


def plain_keyring(chance):
    """Keys that certify one another at random, some with a subkey, a second user ID, an expiry or a revocation."""
    keys = made(KEYS)
    later()
    gpg("--quick-add-key", keys[0], "cv25519", "encr", "never")
    for key, text in ((keys[1], "Colon: back\\slash <x@example.org>"), (keys[2], "Zoë <z@example.org>"), (keys[3], "Gone <g@example.org>")):
        later()
        gpg("--quick-add-uid", key, text)
    later()
    gpg("--quick-set-expire", keys[4], "5d")
    pairs = [(signer, signed) for signer in keys for signed in keys if signer != signed]
    for signer, signed in chance.sample(pairs, CERTIFICATIONS):
        later()
        gpg("--default-key", signer, "--quick-sign-key", signed)
    later()
    gpg("--quick-revoke-uid", keys[3], "Gone <g@example.org>")
    with open(os.path.join(os.environ["GNUPGHOME"], "openpgp-revocs.d", keys[5] + ".rev"), encoding="utf-8") as file:
        later()
        gpg("--import", given=file.read().replace(":-----BEGIN", "-----BEGIN"))
    return keys


def trusting_keyring(chance):
    """A key that trusts others to certify, to a depth, marginally or fully, some of them for a domain alone."""
    keys = made(8)
    for signer, signed, value, depth, domain in (
        (0, 1, 2, 2, ""),
        (0, 2, 1, 1, ""),
        (0, 3, 2, 1, "example.org"),
        (0, 4, 2, 3, "example.net"),
        (1, 5, 2, 1, ""),
        (1, 2, 1, 1, ""),
    ):
        later()
        gpg(
            "-u", keys[signer], "--command-fd", "0", "--edit-key", keys[signed],
            given=f"tsign\n{value}\n{depth}\n{domain}\ny\nsave\n", batch=False,
        )
    for signer, signed in ((3, 6), (4, 6), (2, 6), (5, 7), (2, 7), (4, 7)):
        later()
        gpg("--default-key", keys[signer], "--quick-sign-key", keys[signed])
    return keys


def by_gnupg(trusts):
    gpg("--import-ownertrust", given="".join(f"{key}:{number}:\n" for key, number in trusts.items()))
    gpg("--check-trustdb")
    return letters(gpg("--with-colons", "--fixed-list-mode", "--list-keys"))


def by_program(listing):
    session = ["ownertrust", *gpg("--export-ownertrust").splitlines(), ".", f"date {gpg_keys.clock}", "import", *listing.splitlines(), ".", "list", ""]
    done = run("\n".join(session))
    if done.returncode:
        sys.exit(f"gnupg: the program ended with {done.returncode}, and told {done.stdout[:300]}")
    return letters(done.stdout.decode())


def compared(keyring, choose, rounds):
    """How often each letter came from both; it ends where they differ."""
    chance = random.Random(5)
    with tempfile.TemporaryDirectory(prefix="wot", ignore_cleanup_errors=True) as home:
        os.environ["GNUPGHOME"] = home
        keys = keyring(chance)
        later(10 * DAY)
        agreed = {}
        for _ in range(rounds):
            trusts = choose(chance, keys)
            wanted = by_gnupg(trusts)
            listing = gpg("--with-colons", "--fixed-list-mode", "--check-sigs")
            told = by_program(listing)
            if told != wanted:
                sys.exit(f"gnupg: {told} in place of {wanted}, with the ownertrust {trusts}, over\n{listing}")
            for letter in told.values():
                agreed[letter] = agreed.get(letter, 0) + 1
        subprocess.run(["gpgconf", "--kill", "all"], capture_output=True, check=False)
        return agreed


def anybody(chance, keys):
    return {key: chance.choice(NUMBERS) for key in keys}


def first_alone(chance, keys):
    """Whom the others trust shows by trust signatures."""
    return {key: 6 if key == keys[0] else chance.choice([2, 2, 4]) for key in keys}


if __name__ == "__main__":
    try:
        print(f"gnupg: the same letters: {compared(plain_keyring, anybody, ROUNDS)}")
        print(f"gnupg: the same letters under trust signatures: {compared(trusting_keyring, first_alone, 5)}")
    except NoGnuPG as fault:
        print(f"gnupg: skipped: {fault}")
