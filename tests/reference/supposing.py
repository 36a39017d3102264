"""A second reading of what an edit would change, and on whose ownertrust a letter hangs: each state that is supposed is counted from nothing.

It shares nothing with the program.
"""
from . import keyring
from .keyring import OWNER_LETTERS, UNKNOWN, Options, State, key_id, order
from .store import set_entry

TRUSTS = {letter: trust for trust, letter in OWNER_LETTERS.items()} | {"o": UNKNOWN}
# a letter that is further back stands behind; the letters `r` and `e` don't hang on anybody
ORDER = "ufmq-"


def letters(state):
    """The letter of each user ID, by its key ID and its place, in rising order."""
    rows = keyring.rows_of(state)
    users = ((k, place, user) for k in sorted(state.keys) for place, user in enumerate(state.keys[k].users, 1))
    return {(k, place): keyring.letter(state, rows, k, user) for k, place, user in users}


def edited(state: State, words):
    """The state after an edit that may be supposed, by its words: of ownertrust, of the date in seconds, or of the options."""
    name, *given = words
    if name == "trust":
        fpr = bytes.fromhex(given[0])
        return set_entry(state, fpr, TRUSTS[given[1]], is_disabled(state, fpr))
    if name == "date":
        return state._replace(date=int(given[0]))
    return state._replace(options=Options(given[0] == "pgp", *map(int, given[1:])))


def is_disabled(state, fpr):
    return state.trusts.get(fpr, (UNKNOWN, False))[1]


def changes(before, after):
    """The user IDs whose letter is another in the second state, with both letters."""
    old, new = letters(before), letters(after)
    return [(*user, old[user], new[user]) for user in old if old[user] != new[user]]


def suppose(state, words):
    """The reply to `suppose` of an edit that is accepted."""
    found = changes(state, edited(state, words))
    lines = (b"change:%016X:%d:%s:%s:\n" % (k, place, old.encode(), new.encode()) for k, place, old, new in found)
    return b"".join(lines) + b"ok changes %d\n" % len(found)


def losses(state, k, place):
    """The fingerprints without whose ownertrust the letter of a user ID is further back, each with that letter."""
    letter = letters(state)[k, place]
    for fpr in sorted((fpr for fpr, (trust, _) in state.trusts.items() if trust != UNKNOWN), key=order):
        other = letters(set_entry(state, fpr, UNKNOWN, is_disabled(state, fpr)))[k, place]
        if letter in ORDER and ORDER.index(other) > ORDER.index(letter):
            yield fpr, other


def critical(state, fpr, place):
    """The reply to `critical` of a user ID by its place in its key's block."""
    key = state.keys.get(key_id(fpr))
    if key is None or key.fpr != fpr:
        return b"err no-such-key\n"
    if place > len(key.users):
        return b"err no-such-user\n"
    found = list(losses(state, key_id(fpr), place))
    lines = (b"critical:%s:%s:\n" % (other.hex().upper().encode(), letter.encode()) for other, letter in found)
    return b"".join(lines) + b"ok critical %d\n" % len(found)
