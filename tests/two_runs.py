#!/usr/bin/env python3
"""Starts a second run of the built program on a store that another run has: it ends as a disk fault, tells why, and has
read and written nothing.

Each may come first, a session or a single command; and a run that was ended by a signal leaves the store free.
"""
import fcntl
import os
import signal
import subprocess
import sys
import time

from reference.program import HELD, PROGRAM, fingerprint, folder, run, trust

A, B = fingerprint("A"), fingerprint("B")
REFUSED = (5, b"", f"{HELD}\nwot: disk fault\n".encode())


def started(where, words=()):
    return subprocess.Popen([PROGRAM, *words], stdin=subprocess.PIPE, stdout=subprocess.PIPE, stderr=subprocess.PIPE, cwd=where)


def told(child, line):
    """The first line of the reply to a line of a session."""
    child.stdin.write(line.encode())
    child.stdin.flush()
    return child.stdout.readline()


def result(done):
    return done.returncode, done.stdout, done.stderr


def files(where):
    """What each file of the folder holds."""
    found = {}
    for name in sorted(os.listdir(where)):
        with open(os.path.join(where, name), "rb") as file:
            found[name] = file.read()
    return found


def beside(where):
    """What differs in runs beside one that has the store."""
    before = files(where)
    for given, words in (("list\n", ()), (trust("A", "n"), ()), ("", ("list",)), ("", ("trust", B, "f"))):
        yield given or words, result(run(given, words, where)), REFUSED
    yield "the files", files(where), before
    yield "a wrong word", run(words=["-x"], where=where).returncode, 2


def session_first():
    with folder() as where:
        child = started(where)
        yield "the session's edit", told(child, trust("A", "u")), b"ok\n"
        yield from beside(where)
        yield "its next edit", told(child, trust("B", "m")), b"ok\n"
        yield "its end", child.communicate(timeout=60), (b"", b"")
        yield "the run after it", result(run("export\n", where=where)), (0, f"{A}:6:\n{B}:4:\nok\n".encode(), b"")


def command_first():
    with folder() as where:
        child = started(where, ["ownertrust"])
        # the second file is made once the first is held
        for _ in range(1000):
            if os.path.exists(os.path.join(where, "wot.1")):
                break
            time.sleep(0.01)
        time.sleep(0.2)
        yield from beside(where)
        yield "the command", child.communicate(f"{A}:6:\n".encode(), timeout=60), (b"ok entries 1\n", b"")
        yield "the run after it", result(run("export\n", where=where)), (0, f"{A}:6:\nok\n".encode(), b"")


def ended_by_a_signal():
    with folder() as where:
        child = started(where)
        yield "the edit", told(child, trust("A", "u")), b"ok\n"
        os.kill(child.pid, signal.SIGKILL)
        child.communicate(timeout=60)
        yield "the run after it", result(run("export\n", where=where)), (0, f"{A}:6:\nok\n".encode(), b"")


def locked_by_another_program():
    """The first file is there and held: no other is made."""
    with folder() as where:
        with open(os.path.join(where, "wot.0"), "wb") as file:
            fcntl.flock(file, fcntl.LOCK_EX)
            yield "a run", result(run("list\n", where=where)), REFUSED
            yield "the files", files(where), {"wot.0": b""}
        yield "the run after it", run("list\n", where=where).returncode, 0


done = 0
for check in (session_first, command_first, ended_by_a_signal, locked_by_another_program):
    for name, found, wanted in check():
        if found != wanted:
            sys.exit(f"two runs: {check.__name__}: {name}: {found!r} in place of {wanted!r}")
        done += 1
print(f"two runs: {done} ok")
