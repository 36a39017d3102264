#!/usr/bin/env python3
"""Makes some 25,000 edits of one key of a keyring of 100,000 within the 60 seconds of a test, and opens the store with them again.

Nobody is certified by that key, so each edit of its ownertrust, each import of it and each delete may read its certifications alone, and a date
at which nothing has expired since none at all. A program that reads the keyring at each edit reads some 400,000 certifications at each, and does
not end in that time. `options` touches all keys: a few of these are made, and show that they end.

The counter of what is read takes no bytes, so no run can look at it. What is looked at is the number that bounds it, of the last key of 5,000.
"""
import os
import subprocess
import sys
import tempfile
import threading
import time

from reference import made
from reference.program import PROGRAM, folder, run, short

KEYS, SECONDS = 100_000, 60


def most_read(count, depth=5):
    """How many certifications an edit of the last of so many keys may read: depth + 2 times those on the keys that it touches, before and after it.
    Where it certifies nobody it touches itself alone."""
    certs, key = {}, None
    for fields in (line.split(":") for line in run(f"sample 7 {count}\nsigs\n").stdout.decode().splitlines()):
        if fields[0] == "pub":
            key = fields[4]
        elif fields[0] in ("sig", "rev"):
            certs.setdefault(key, []).append(fields[4])
    last = made.fingerprint(7, count - 1)[-16:]
    if any(last in issuers for issuers in certs.values()):
        sys.exit(f"many edits: the last of {count} keys certifies another one")
    return (depth + 2) * 2 * len(certs[last])


class Session:
    """A session in a folder, which is given many commands at once; it is ended where it takes too long."""

    def __init__(self, where):
        self.child = subprocess.Popen([PROGRAM], stdin=subprocess.PIPE, stdout=subprocess.PIPE, stderr=subprocess.PIPE, cwd=where)
        self.clock = threading.Timer(SECONDS, self.child.kill)
        self.clock.start()

    def replies(self, given, count):
        """The replies to so many commands, and how long they took."""
        begun = time.monotonic()
        writer = threading.Thread(target=self.write, args=(given,))
        writer.start()
        told, ends = [], 0
        for line in self.child.stdout:
            told.append(line.decode())
            ends += line.startswith((b"ok", b"err"))
            if ends == count:
                break
        writer.join()
        return told, time.monotonic() - begun

    def write(self, given):
        try:
            self.child.stdin.write(given.encode())
            self.child.stdin.flush()
        except BrokenPipeError:
            pass

    def end(self):
        """What was told to standard error, and the status."""
        told = self.child.communicate()[1]
        self.clock.cancel()
        return told, self.child.returncode


def loops(fpr, listed):
    """The edits of each kind: their name, the edits, which are answered in turn, and how the answer to each begins."""
    block = [line for line in listed if line.startswith(("pub:", "fpr:", "uid:", "uat:", "sig:", "rev:"))]
    # one certification fewer at every second import, so that each changes the key
    imports = ["import\n" + "".join(lines) + ".\n" for lines in (block, block[:-1])]
    yield "trust", [f"trust {fpr} m\n", f"trust {fpr} n\n"], 10_000, ["ok\n"]
    yield "import", imports, 5_000, ["ok keys 1 kept "]
    yield "delete and import", [f"delete {fpr}\n", imports[0]], 5_000, ["ok\n", "ok keys 1 kept "]
    yield "date", ["date 1\n", "date 0\n"], 5_000, ["ok\n"]
    yield "options", ["options pgp 1 3 4 2\n", "options pgp 1 3 5 2\n"], 4, ["ok\n"]


def main():
    bound = most_read(5_000)
    if bound > 56:
        sys.exit(f"many edits: an edit of the last of 5,000 keys may read {bound} certifications")
    fpr, times = made.fingerprint(7, KEYS - 1), []
    with folder() as store:
        session = Session(store)
        (tally, *told), took = session.replies(f"sample 7 {KEYS}\n", 1)
        if not tally.startswith("tally:") or told != [f"ok keys {KEYS}\n"]:
            sys.exit(f"many edits: told {short(tally)}, {told}")
        times.append(f"sample {took:.1f} s")
        listed, _ = session.replies(f"sigs {fpr}\n", 1)
        for name, edits, count, wanted in loops(fpr, listed):
            told, took = session.replies("".join(edits[number % 2] for number in range(count)), count)
            wrong = [line for number, line in enumerate(told) if not line.startswith(wanted[number % len(wanted)])]
            if wrong or len(told) != count:
                sys.exit(f"many edits: {len(told)} of {count} edits by {name} were answered in {took:.1f} s, and not ok: {short(''.join(wrong))}")
            times.append(f"{count} by {name} {took:.1f} s")
        last, _ = session.replies(f"sigs {fpr}\nexport\n", 2)
        if session.end() != (b"", 0):
            sys.exit("many edits: the session failed")
        begun = time.monotonic()
        again = run(f"sigs {fpr}\nexport\n", where=store, timeout=SECONDS)
        opened = time.monotonic() - begun
    if again.stdout.decode() != "".join(last) or f"{fpr}:3:\n" not in last or again.returncode != 0:
        sys.exit(f"many edits: reopened, told {short(again.stdout)} in place of {short(''.join(last))}, status {again.returncode}")
    print(f"many edits: one edit of the last of 5,000 keys may read {bound} certifications; edits of one of {KEYS} keys: {', '.join(times)}, and their store opens in {opened:.1f} s")


if __name__ == "__main__":
    # no store here has to outlive a stop of the machine, and what is timed are no syncs
    tempfile.tempdir = "/dev/shm" if os.path.isdir("/dev/shm") else None
    main()
