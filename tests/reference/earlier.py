"""A second reading of MANUAL: the states since the base, the replies to `at`, and what a side shows that is read again while a run has it open.

It shares nothing with the program.
"""
from . import keyring, store
from .keyring import key_id
from .store import GATE, MOST, Bad, base_end


def reply(state, query, *words):
    """The reply to `list`, `list FPR` or `why FPR PLACE` in a state."""
    fpr = bytes.fromhex(words[0]) if words else None
    if query == "why":
        return keyring.why(state, keyring.rows_of(state), fpr, int(words[1]))
    if fpr is None:
        return keyring.listed(state) + b"ok\n"
    k = key_id(fpr)
    there = k in state.keys and state.keys[k].fpr == fpr
    return keyring.listed(state, of=k) + b"ok\n" if there else b"err no-such-key\n"


def at(states, count, *query):
    """The reply to `at` by the states since the base, of which the first is that of the base itself."""
    return reply(states[count], *query) if count < len(states) else b"err no-such-time %d\n" % (len(states) - 1)


def read_again(data, epoch, pages, count):
    """The state after the first so many edits since the base of a side, or the first fault of its bytes; the rows of the base are not looked at."""
    limit, place = min(len(data), MOST), base_end(pages)
    if place >= limit:
        return Bad("Short")
    contents = store.page_contents(data, epoch, pages)
    if contents is None:
        return Bad("Seal")
    try:
        state, _ = store.read_base(contents)
    except store.NoSpelling:
        return Bad("Spelling")
    for _ in range(count):
        found = Bad("Lost") if data[place] != GATE else store.after_record(data, state, place)
        if isinstance(found, Bad):
            return found
        state, place = found
    return state
