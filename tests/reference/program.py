"""What the checks of the built program share: a fresh folder a run, what a fault is told by, and short keys."""
import errno
import os
import re
import subprocess
import sys
import tempfile
from typing import NamedTuple

PROGRAM = os.path.abspath(sys.argv[1])
# what standard error gets where the words are no usage
USAGE = "usage: wot [--workers N] [WORD]...\nsee wot(1)\n"
# of the two lines that it gets where a call failed, the first is the reason, with what the call was made on, and the second is that of the status
HELD = "wot: another run of wot holds wot.0"
REASON = re.compile(r"wot: (standard input|standard output|the current folder|wot\.[01]): (.+)")
LINES = {"wot: read fault": 3, "wot: write fault": 4, "wot: disk fault": 5}

# what GnuPG prints for three keys with a subkey, a designated revoker, self-signatures and one that it could not check
LISTING = os.path.join(os.path.dirname(os.path.abspath(__file__)), "..", "..", "examples", "gnupg-listing", "input")
with open(LISTING, encoding="utf-8") as session:
    REAL = session.read().partition("import\n")[2].partition("\n.\n")[0] + "\n"


def folder():
    """An empty folder, whose store no other run has."""
    return tempfile.TemporaryDirectory(prefix="wot")


def run(given=b"", words=(), where=None, timeout=120):
    """One run in a folder, or in an empty one."""
    data = given.encode() if isinstance(given, str) else given
    if where is None:
        with folder() as empty:
            return run(data, words, empty, timeout)
    return subprocess.run([PROGRAM, *words], input=data, capture_output=True, cwd=where, timeout=timeout)


class Fault(NamedTuple):
    """What standard error tells of a call that failed."""

    status: int
    place: str
    error: int  # the system's number of it, or 0 where it is none of the system's


def fault(told):
    """The fault that standard error tells, or nothing where it tells none."""
    reason, _, line = told.decode(errors="replace").removesuffix("\n").partition("\n")
    found = re.fullmatch(REASON, reason)
    if line not in LINES or not (found or reason == HELD):
        return None
    if not found:
        return Fault(LINES[line], "wot.0", errno.EAGAIN)
    place, text = found.groups()
    number = re.search(r" \(os error (\d+)\)\Z", text)
    error = int(number[1]) if number else 0
    # a number has the system's words before it
    return Fault(LINES[line], place, error) if not number or text == f"{os.strerror(error)}{number[0]}" else None


def short(text):
    """A text that may be long, as it is shown."""
    dots = b".." if isinstance(text, bytes) else ".."
    return repr(text if len(text) < 400 else text[:200] + dots + text[-200:])


def fingerprint(name):
    """A key's fingerprint, by the two hexadecimal digits that it ends with; one digit stands for two."""
    return "0" * 38 + (name * 2 if len(name) == 1 else name)


def key_id(name):
    return fingerprint(name)[-16:]


def trust(name, letter):
    return f"trust {fingerprint(name)} {letter}\n"


def by(issuer, made=2000, expires="", trusts="", scope="", kind="13x", record="sig", named=""):
    """A certification by a key, which may name a fingerprint."""
    return f"{record}:!:::{key_id(issuer)}:{made}:{expires}:{trusts}:{scope}::{kind}:" + (f":{named}:" if named else "") + "\n"


def key(name, *certs, expires="", text=None):
    """A key with one user ID, as it is imported; a certification is a line, or the name of its issuer."""
    text = f"{name} <{name.lower()}@example.org>" if text is None else text
    return (
        f"pub:-:255:22:{key_id(name)}:1000:{expires}::-:::scSC:\n"
        f"fpr:::::::::{fingerprint(name)}:\n"
        f"uid:-::::1000::::{text}:\n" + "".join(c if ":" in c else by(c) for c in certs)
    )


def imported(*keys):
    return "import\n" + "".join(keys) + ".\n"


def letters(listing):
    """The letter of each user ID of a printed listing, by its text."""
    return {f[9]: f[1] for f in (line.split(":") for line in listing.splitlines()) if f[0] in ("uid", "uat")}
