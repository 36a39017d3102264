"""Edits and compactions at random, and what a store shows after each of them by the second reading of the formats."""
import re
from typing import NamedTuple

from . import keyring
from . import listing
from . import ownertrust
from . import store
from .program import by, fingerprint, imported, key, key_id

NAMES = "ABCDEF12"
NEW = store.shown(b"", b"")
TRUSTS = {"-": 0, "q": 2, "n": 3, "m": 4, "f": 5, "u": 6}
DATES = (0, 1500, 3000, 5000, 9000)
SCOPES = ("", "", "<[^>]+[@.]example\\x5c.org>$", "<[^>]+[@.]example\\x5c.net>$", "@example|^F", "[A-C] <")


class Step(NamedTuple):
    """A command with its block, and the payload of its record, or nothing where it is `compact`."""

    given: str
    payload: bytes | None


COMPACT = Step("compact\n", None)


def after(found, step):
    """What a store shows after a step."""
    return store.compacted(found) if step.payload is None else store.edited(found, step.payload)


def states(found, steps):
    """What a store shows before the steps and after each."""
    reached = [found]
    for step in steps:
        reached.append(after(reached[-1], step))
    return reached


def put(data, at, piece):
    """A file's bytes after a write."""
    return data[:at] + piece + data[at + len(piece):]


def opened(sides):
    """The files that an opening leaves: those that are there, or a new store over what is blank."""
    return (put(sides[0], 0, store.side_for(1, NEW.state)), sides[1]) if all(map(store.is_blank, sides)) else sides


def written(sides, step):
    """The files that a step leaves; what lies behind the last byte that is written stays."""
    found, left = store.shown(*sides), list(sides)
    if step.payload is not None:
        left[found.side] = put(left[found.side], found.end, store.record(step.payload) + b"\0")
    elif found.epoch < store.LAST_EPOCH:
        left[1 - found.side] = put(left[1 - found.side], 0, store.side_for(found.epoch + 1, found.state))
    return tuple(left)


def files(sides, steps):
    """The files after an opening of these, and after each step."""
    reached = [opened(sides)]
    for step in steps:
        reached.append(written(reached[-1], step))
    return reached


def acknowledged(told):
    """How many steps have been answered wholly: each is accepted."""
    return len(re.findall(rb"^ok[^\n]*\n", told, re.M))


def shows(state):
    """What `sigs` and `export` tell of a state."""
    return keyring.sigs(state) + b"ok\n" + keyring.export(state) + b"ok\n"


def printed(sigs, export, date, options):
    """The state that the replies to `sigs` and `export` print, of this date and these options."""
    keys, _, _ = listing.read([line for line in sigs.splitlines() if line != b"ok"])
    _, state = ownertrust.imported(keyring.opening(), [line for line in export.splitlines() if line != b"ok"])
    return state._replace(keys=keys, date=date, options=options)


ASKED = "sigs\nexport\n"


def trust(name, letter):
    return Step(f"trust {fingerprint(name)} {letter}\n", b"\3" + fpr_bytes(name) + bytes([TRUSTS[letter]]))


def flag(name, disabled):
    return Step(f"{'disable' if disabled else 'enable'} {fingerprint(name)}\n", b"\4" + fpr_bytes(name) + bytes([disabled]))


def delete(name):
    return Step(f"delete {fingerprint(name)}\n", b"\5" + bytes.fromhex(fingerprint(name))[-8:])


def date(seconds):
    return Step(f"date {seconds}\n", b"\6" + store.number(seconds, 4))


def options(found):
    words = f"{'pgp' if found.pgp else 'classic'} {found.completes} {found.marginals} {found.depth} {found.level}"
    return Step(f"options {words}\n", b"\7" + store.options_bytes(found))


def sample(seed, count):
    return Step(f"sample {seed} {count}\n", b"\x08" + store.number(seed, 8) + store.number(count, 4))


def keys(*lines):
    """The import of some keys, as they are listed."""
    found, _, _ = listing.read("".join(lines).encode().splitlines())
    return Step(imported(*lines), store.import_payload(found))


def entries(values):
    """The ownertrust of some names, each with a letter and whether it is disabled; none is unknown alone."""
    lines = "".join(f"{fingerprint(name)}:{TRUSTS[letter] + 128 * disabled}:\n" for name, (letter, disabled) in values.items())
    spelled = [(bytes.fromhex(fingerprint(name)), (TRUSTS[letter], disabled)) for name, (letter, disabled) in sorted(values.items())]
    return Step(f"ownertrust\n{lines}.\n", b"\2" + store.some(spelled, store.entry_bytes))


def fpr_bytes(name):
    return store.fingerprint_bytes(bytes.fromhex(fingerprint(name)))


class Steps:
    """Steps at random, of which each is accepted after those before it; at most so many made keys at once."""

    def __init__(self, chance, made=40, compactions=0.2):
        self.chance, self.made, self.compactions = chance, made, compactions

    def name(self):
        return self.chance.choice(NAMES)

    def letter(self):
        return self.chance.choice("uuffmmqn-")

    def certification(self):
        kind, record = self.chance.choice((("13x", "sig"), ("10l", "sig"), ("11x", "sig"), ("30x", "rev")))
        trusts = self.chance.choice(("", "1 60", "2 120", "4 120"))
        scope = self.chance.choice(SCOPES) if trusts else ""
        name, other = self.name(), self.name()
        named = self.chance.choice(("", "", fingerprint(name), fingerprint(other), "0" * 48 + key_id(name)))
        return by(name, self.chance.choice(DATES), self.chance.choice(("", "", 4000)), trusts, scope, kind, record, named)

    def key(self, name):
        certs = [self.certification() for _ in range(self.chance.randrange(4))]
        return key(name, *certs, expires=self.chance.choice(("", "", "", 6000)))

    def keys(self):
        return keys(*(self.key(name) for name in sorted(self.chance.sample(NAMES, self.chance.choice((1, 1, 2, 5))))))

    def entries(self):
        names = self.chance.sample(NAMES, self.chance.randrange(4))
        return entries({name: (self.chance.choice("qnmfu"), self.chance.random() < 0.2) for name in names})

    def options(self):
        ranges = ((True, True, False), (1, 2), (2, 3), (1, 2, 5, 255), (1, 2, 3))
        return options(keyring.Options(*map(self.chance.choice, ranges)))

    def gone(self, found):
        there = [name for name in NAMES if keyring.key_id(bytes.fromhex(fingerprint(name))) in found.state.keys]
        return delete(self.chance.choice(there)) if there else self.keys()

    def edit(self, found):
        kinds = (
            lambda: trust(self.name(), self.letter()), lambda: trust(self.name(), self.letter()), self.keys, self.keys, self.entries, self.options,
            lambda: flag(self.name(), self.chance.random() < 0.5), lambda: date(self.chance.choice(DATES)), lambda: self.gone(found),
            lambda: sample(7, self.chance.randrange(1, self.made + 1)),
        )
        return self.chance.choice(kinds)()

    def next(self, found):
        return COMPACT if self.chance.random() < self.compactions else self.edit(found)

    def some(self, found, count):
        """So many steps, and what the store shows before them and after each."""
        steps, reached = [], [found]
        for _ in range(count):
            steps.append(self.next(reached[-1]))
            reached.append(after(reached[-1], steps[-1]))
        return steps, reached
