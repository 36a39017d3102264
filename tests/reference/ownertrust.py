"""A second reading of docs/FORMATS.md: what an ownertrust text gives, or its first fault with its line."""
from . import listing
from .keyring import TRUST_NUMBERS
from .listing import Fault, Fields, digits


def read_line(line):
    """The entry of a line, if it gives one."""
    if not line.strip(b" ") or line.startswith(b"#"):
        return None
    if line.count(b":") != 2 or not line.endswith(b":"):
        raise Fault("BadShape")
    fields = Fields(line)
    try:
        fpr = fields.fingerprint(1)
    except Fault:
        raise Fault("BadFingerprint") from None
    value = digits(fields[2], 255, "BadValue")
    if value & 127 not in TRUST_NUMBERS:
        raise Fault("BadValue")
    return (fpr, (value & 127, value > 127)) if value else None


def imported(state, lines):
    """The reply to an ownertrust block of these lines, as they are given, and the state after it."""
    if any(len(line) > listing.LINE for line in lines):
        return b"err line-too-long\n", state
    entries = {}
    for number, line in enumerate(lines, 1):
        try:
            entry = read_line(line[:-1] if line.endswith(b"\r") else line)
        except Fault as fault:
            return b"err ownertrust %d %s\n" % (number, str(fault).encode()), state
        if entry:
            entries[entry[0]] = entry[1]
    return b"ok entries %d\n" % len(entries), state._replace(trusts=state.trusts | entries)
