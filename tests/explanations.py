#!/usr/bin/env python3
"""Recounts letters outside the program's own explanation, over a keyring made at random and over the one that `sample` makes.

For some user IDs the reply to `why` is compared with a second reading's, and the cut keyring is made from what `why` and `sigs` print, imported into
an empty store with the same ownertrust, date and options, and the letter there is compared with the letter in the whole.
"""
import random
import sys

from reference import histories, keyring
from reference.program import folder, run

KEYS, ASKED = 300, 40
chance = random.Random(17)
AT_RANDOM, MADE = (5000, keyring.Options(marginals=2, depth=40, level=1)), (1750000000, keyring.Options())


def fingerprint(number):
    return f"{number:040X}"


def key_id(number):
    return f"{number:016X}"


def certification(number):
    """A certification by an earlier key, or by a few later ones; some are trust signatures, revocations or expired."""
    issuer = chance.choice([chance.randrange(1, 20), chance.randrange(max(1, number - 20), number + 2)])
    if issuer == number:
        return ""
    record, kind = ("rev", "30x") if chance.random() < 0.05 else ("sig", chance.choice(["10x", "13x", "13l"]))
    trusts, scope = "", ""
    if record == "sig" and chance.random() < 0.3:
        trusts = f"{chance.choice([1, 2, 3, 6])} {chance.choice([60, 120])}"
        scope = chance.choice(["", "", "<[^>]+[@.]d1\\x5c.example>$", "@d[^0]", "k[0-9]+@d(1|2)"])
    expires = chance.choice(["", "", "", "", 4000, 9000])
    named = chance.choice(["", "", f":{fingerprint(issuer)}:", f":{fingerprint(issuer)}:", f":{fingerprint(number)}:"])
    return f"{record}:!:::{key_id(issuer)}:{chance.randrange(1000, 5000)}:{expires}:{trusts}:{scope}::{kind}:{named}\n"


def key(number):
    revoked = "r" if chance.random() < 0.03 else "-"
    lines = [f"pub:{revoked}:255:22:{key_id(number)}:1000:{chance.choice([''] * 8 + [4000, 9000])}::-:::scSC:\n", f"fpr:::::::::{fingerprint(number)}:\n"]
    for user in range(chance.choice([1, 1, 2])):
        lines.append(f"uid:{chance.choice('-----------r')}::::1000::::Key {number} <u{user}k{number}@d{number % 3}.example>:\n")
        lines += [certification(number) for _ in range(chance.randrange(2, 9))]
    return "".join(lines)


def entry(number):
    trust = 6 if number <= 3 else chance.choice([0, 3, 4, 4, 5, 5, 5])
    return f"{fingerprint(number)}:{trust}:\n"


def blocks(listing):
    """The fingerprint and the lines of each key of a printed listing, by key ID."""
    found, head, lines = {}, "", []
    for line in listing.splitlines(keepends=True):
        kind, *fields = line.split(":")
        if kind == "pub":
            head, lines = fields[3], []
        if kind == "fpr":
            found[head] = (fields[8], lines)
        if kind in ("pub", "fpr", "uid", "uat", "sig", "rev"):
            lines.append(line)
    return found


def letters(lines):
    return [line.split(":")[1] for line in lines if line.startswith(("uid:", "uat:"))]


def cut(sigs, kept, explained):
    """The keys of the explanation and the explained one, and on them only what keys of the explanation certify."""
    return "".join(
        line for key, (_, lines) in sigs.items() if key in kept or key == explained
        for line in lines if line[:3] not in ("sig", "rev") or line.split(":")[4] in kept
    )


def explained(name, settings, begun):
    """Asks for some user IDs of a keyring that these commands make, and recounts each on the keyring that is cut down to its explanation."""
    seen, sizes, set_up = {}, [], "".join(step.given for step in (histories.date(settings[0]), histories.options(settings[1])))
    with folder() as store:
        assert run(set_up + begun, where=store).returncode == 0
        printed, exported = (run(f"{command}\n", where=store).stdout for command in ("sigs", "export"))
        state = histories.printed(printed, exported, *settings)
        sigs, rows = blocks(printed.decode()), keyring.rows_of(state)
        ownertrust = "ownertrust\n" + exported.decode()[: -len("ok\n")] + ".\n"
        users = [(key, fingerprint, place) for key, (fingerprint, lines) in sigs.items() for place in range(1, len(letters(lines)) + 1)]
        for key, fingerprint, place in chance.sample(users, ASKED):
            told = run(f"why {fingerprint} {place}\n", where=store).stdout.decode()
            again = keyring.why(state, rows, bytes.fromhex(fingerprint), place).decode()
            if told != again:
                sys.exit(f"explanations: {name}: why {fingerprint} {place} told\n{told}in place of\n{again}")
            lines = [line.split(":") for line in told.splitlines()]
            kept = {line[1] for line in lines if line[0] == "row"}
            wanted = letters(sigs[key][1])[place - 1]
            there = run(set_up + ownertrust + "import\n" + cut(sigs, kept, key) + ".\nlist\n").stdout.decode()
            found = letters(blocks(there)[key][1])[place - 1]
            if not lines[0][1] == lines[-2][1] == wanted == found or lines[-2][0] != "cut":
                sys.exit(f"explanations: {name}: user ID {place} of {key} is {wanted}, and {found} on the cut keyring; why told\n{told}")
            seen[wanted] = seen.get(wanted, 0) + 1
            sizes.append(len(kept))
    print(f"explanations: {name}: {ASKED} user IDs have their letter on the cut keyring too: {dict(sorted(seen.items()))}, up to {max(sizes)} keys")


ownertrust_block = "ownertrust\n" + "".join(entry(n) for n in range(1, KEYS + 1)) + ".\n"
explained("keys at random", AT_RANDOM, ownertrust_block + "import\n" + "".join(key(n) for n in range(1, KEYS + 1)) + ".\n")
if run("sample 7 1\n").stdout == b"err unknown-command\n":
    print("explanations: made keys: skipped: no command sample")
else:
    explained("made keys", MADE, f"sample 7 {KEYS}\n")
