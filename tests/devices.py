#!/usr/bin/env python3
"""Runs the built program on devices that fail, and looks at the order of its calls.

Standard output on a full device, a folder as standard input, streams that were closed before the run, each told by the system's error, and the
writes and syncs between two replies.
What the machine has no means for is skipped, and said so.
"""
import errno
import itertools
import os
import re
import shutil
import subprocess
import sys
import tempfile

from reference.program import PROGRAM, Fault, fault, fingerprint, folder, imported, key, run, short, trust


def full_output():
    if not os.path.exists("/dev/full"):
        return "skipped: no /dev/full"
    with folder() as store, open("/dev/full", "wb") as full:
        done = subprocess.run([PROGRAM], input=b"list\n", stdout=full, stderr=subprocess.PIPE, cwd=store, timeout=60)
    return "ok" if (done.returncode, fault(done.stderr)) == (4, Fault(4, "standard output", errno.ENOSPC)) else f"FAULT: {done}"


def folder_as_input():
    with folder() as store:
        here = os.open(store, os.O_RDONLY)
        done = subprocess.run([PROGRAM], stdin=here, capture_output=True, cwd=store, timeout=60)
        os.close(here)
    return "ok" if (done.returncode, fault(done.stderr), done.stdout) == (3, Fault(3, "standard input", errno.EISDIR), b"") else f"FAULT: {done}"


def usage_makes_nothing():
    with folder() as store:
        done = run(words=["--help"], where=store)
        left = os.listdir(store)
    return "ok" if (done.returncode, left) == (2, []) else f"FAULT: {done}, {left}"


A, B = fingerprint("A"), fingerprint("B")
LISTED = run(trust("A", "u") + "list\nexport\n").stdout[len("ok\n"):]
TRU, EXPORTED = LISTED.split(b"ok\n")[:2]
# what a run is given, its words, what it tells and changes of the ownertrust and of the keys
RUNS = {
    "a query": (b"", ["list"], TRU + b"ok\n", b"", 0),
    "a query of a session": (b"list\n", [], TRU + b"ok\n", b"", 0),
    "an edit": (b"", ["trust", B, "f"], b"ok\n", f"{B}:5:\n".encode(), 0),
    "an edit of a session": (f"trust {B} f\n".encode(), [], b"ok\n", f"{B}:5:\n".encode(), 0),
    "an import": (key("A").encode(), ["import"], b"ok keys 1 kept 0 passed 0\n", b"", 1),
    "an import of a session": (imported(key("A")).encode(), [], b"ok keys 1 kept 0 passed 0\n", b"", 1),
}

# a stream that was closed is none, until the folder stands in its place
NO_STREAM = (errno.EBADF, errno.EISDIR)


def run_without(closed, given, words, where):
    """A run that begins with these descriptors closed."""
    def close():
        for number in closed:
            os.close(number)
    return subprocess.run([PROGRAM, *words], input=given, capture_output=True, cwd=where, timeout=60, preexec_fn=close, check=False)


def without(closed, given, words, told, entries, keys):
    """What differs in a run without these streams, and in what a later run finds."""
    with folder() as store:
        run(trust("A", "u"), where=store)
        done = run_without(closed, given, words, store)
        later = run("export\nlist\n", where=store).stdout
    status, place = (3, "standard input") if given and 0 in closed else (4, "standard output") if 1 in closed else (0, None)
    is_told = done.stderr == b"" if status == 0 or 2 in closed else fault(done.stderr) in [Fault(status, place, error) for error in NO_STREAM]
    found = (later.partition(b"ok\n")[0], later.count(b"pub:"))
    made = (EXPORTED, 0) if status == 3 else (EXPORTED + entries, keys)
    return None if ((done.returncode, done.stdout), found) == ((status, b"" if status else told), made) and is_told else (done, later)


def bad_store_without(closed, words):
    """What differs in a run without these streams over files that are no store."""
    with folder() as store:
        for name in ("wot.0", "wot.1"):
            with open(os.path.join(store, name), "wb") as file:
                file.write(b"\xa5" * 100)
        done = run_without(closed, b"list\n", words, store)
        left = [open(os.path.join(store, name), "rb").read() for name in ("wot.0", "wot.1")]
    wanted = (6, b"", b"" if 2 in closed else b"wot: bad store: Magic\n")
    return None if (done.returncode, done.stdout, done.stderr) == wanted and left == [b"\xa5" * 100] * 2 else (done, left)


def closed_streams():
    """Without any of the three streams no file of the store is taken for one."""
    sets = [closed for size in (1, 2, 3) for closed in itertools.combinations(range(3), size)]
    tries = {(closed, name): without(closed, *RUNS[name]) for closed in sets for name in RUNS}
    tries |= {(closed, "a bad store"): bad_store_without(closed, words) for closed in sets for words in ([], ["list"])}
    wrong = {name: short(repr(differs)) for name, differs in tries.items() if differs is not None}
    return f"FAULT: {wrong}" if wrong else f"ok, {len(sets)} sets of them"


CALLS = re.compile(r"(write|pwrite64|writev|ftruncate|fsync|fdatasync)\((\d+)")


# the writes and syncs of an edit, and those of a compaction of one page, in small letters of the first file and in capitals of the second
ORDER = {
    trust("A", "u"): "wswwwswswsws", trust("B", "f"): "wsws", "compact\n": "WSWWWSWS", f"disable {fingerprint('A')}\n": "WSWS", "list\n": "",
    "compact \n": "wswwwsws", trust("B", "m"): "wsws", " compact\n": "WSWWWSWS",
}


def order_of_calls():
    """Between two replies stand the writes and syncs of an edit or of a compaction, in turn."""
    if not shutil.which("strace"):
        return "skipped: no strace"
    with folder() as store, tempfile.NamedTemporaryFile() as log:
        traced = ["strace", "-f", "-o", log.name, "-e", "trace=write,pwrite64,writev,ftruncate,fsync,fdatasync,openat", PROGRAM]
        done = subprocess.run(traced, input="".join(ORDER).encode(), capture_output=True, cwd=store, timeout=120, check=False)
        calls = log.read().decode(errors="replace")
    if done.returncode:
        return f"skipped: no run under strace: {done.returncode}"
    files = {number: name for name, number in re.findall(r'openat\([^"]*"(wot\.[01])".*= (\d+)', calls)}
    kinds = ""
    for name, number in CALLS.findall(calls):
        kind = "w" if "write" in name else "t" if name == "ftruncate" else "s"
        kinds += {"wot.0": kind, "wot.1": kind.upper()}.get(files.get(number), "|" if number == "1" else "")
    # the first two syncs are those of the opening
    found = kinds.removeprefix("sS").split("|")[:-1]
    return "ok" if found == list(ORDER.values()) else f"FAULT: {found}"


faults = False
for check in (full_output, folder_as_input, usage_makes_nothing, closed_streams, order_of_calls):
    said = check()
    faults = faults or said.startswith("FAULT")
    print(f"devices: {check.__name__}: {said}")
sys.exit(1 if faults else 0)
