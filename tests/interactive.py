#!/usr/bin/env python3
"""Drives the built program through pipes as a person does: writes one line, waits for its reply, writes the next.

On a terminal `wot` without any word says first that it reads commands, and nothing else does, also no session with an option.
"""
import os
import pty
import select
import subprocess
import sys

from reference.program import PROGRAM, USAGE, fingerprint, folder

A = fingerprint("A")
TURNS = [
    (f"trust {A} u\n", "ok\n"),
    ("frob\n", "err unknown-command\n"),
    ("# a comment\nexport\n", f"{A}:6:\nok\n"),
    ("at 0 list\n", "tru::1:0:0:3:1:5\nok\n"),
    ("at 2 list\n", "err no-such-time 1\n"),
    ("export", ""),  # no newline yet: no reply
    ("\n", f"{A}:6:\nok\n"),
]
HINT = b"wot: reads commands from standard input; see wot(1)\n"
# the words of a run, and what standard output and error get, where its standard input is a terminal
ON_A_TERMINAL = [
    ((), (b"ok\n", HINT)),
    (("--workers", "2"), (b"ok\n", b"")),
    (("export",), (b"ok\n", b"")),
    (("-x",), (b"", USAGE.encode())),
]


def on_a_terminal(*words):
    """What standard output and error get of a run whose standard input is a terminal, on which its end is typed."""
    ours, theirs = pty.openpty()
    with folder() as store, subprocess.Popen([PROGRAM, *words], stdin=theirs, stdout=subprocess.PIPE, stderr=subprocess.PIPE, cwd=store) as child:
        os.write(ours, b"export\n\x04")
        told = child.communicate(timeout=10)
    os.close(ours)
    os.close(theirs)
    return told


def reply(pipe, wanted):
    """Reads until as many bytes came as are wanted, or none came for a while."""
    told = b""
    while len(told) < len(wanted) or not wanted:
        ready, _, _ = select.select([pipe], [], [], 10 if wanted else 0.3)
        if not ready:
            break
        piece = os.read(pipe.fileno(), 65536)
        if not piece:
            break
        told += piece
    return told.decode()


with folder() as store:
    child = subprocess.Popen([PROGRAM], stdin=subprocess.PIPE, stdout=subprocess.PIPE, stderr=subprocess.PIPE, cwd=store)
    for line, wanted in TURNS:
        child.stdin.write(line.encode())
        child.stdin.flush()
        told = reply(child.stdout, wanted)
        if told != wanted:
            sys.exit(f"interactive: after {line!r} came {told!r} in place of {wanted!r}")
    child.stdin.close()
    found = (child.wait(timeout=10), child.stderr.read())
if found != (1, b""):
    sys.exit(f"interactive: the status and standard error are {found} in place of 1 and nothing")
for words, wanted in ON_A_TERMINAL:
    told = on_a_terminal(*words)
    if told != wanted:
        sys.exit(f"interactive: on a terminal, with the words {words}, came {told!r} in place of {wanted!r}")
print("interactive: ok")
