#!/usr/bin/env python3
"""Runs the programs of contrib/ that make a store, go to it or are made into a package: what is refused early, warned of, told and left behind.

It takes the keyring that gpg makes, and how a program is called, from contrib.py. It skips, and says so, what needs a tool that isn't there.
"""
import contextlib
import gzip
import itertools
import os
import pathlib
import pty
import re
import shutil
import signal
import subprocess
import sys
import time

import contrib
from contrib import CONTRIB, FULL, ULTIMATE, UNDEFINED, checked, gpg, own, place, primaries, synced
from reference.program import PROGRAM, by, fingerprint, folder, imported, key, run, trust

PROGRAMS = ("deb", "wot-import", "wot-in", "wot-nightly", "wot-sync")
# runs a program of contrib/ as a user to whom nothing belongs; what it needs is read before, as it may lie where that user may not look
AS_NOBODY = """
import argparse, contextlib, locale, os, shutil, sys, traceback
del sys.argv[0]
sys.path.insert(0, os.path.dirname(sys.argv[0]))
import wot
code = compile(open(sys.argv[0]).read(), sys.argv[0], "exec")
os.setgroups([])
os.setgid(65534)
os.setuid(65534)
exec(code, {"__name__": "__main__"})
"""
# a listing is asked for by this option alone, and takes gpg long
LISTS = "--check-sigs"


def helps():
    """By -h each program tells how it is called, and does nothing."""
    with place() as at:
        for name in PROGRAMS:
            done = at.run(name, "-h")
            yield name, (done.returncode, done.stderr, name in done.stdout, at.beside()), (0, "", True, [])


def expired_root():
    """The fingerprint of a key that has expired long ago, and is no root of gpg's."""
    gpg("--faked-system-time", "20200101T000000", "--quick-generate-key", "Old <old@example.org>", "ed25519", "default", "1y")
    old = next(fpr for fpr in primaries() if "Old" in gpg("--list-keys", fpr))
    gpg("--import-ownertrust", given=f"{old}:{UNDEFINED}:\n")
    return old


def early():
    """What can be known before gpg checks all signatures is refused before it does."""
    me, alice, bob, _ = primaries()[:4]
    absent = "0123456789" * 4
    texts = {"none": f"{me}:5:\n", "bad": "x\n", "absent": f"{me}:6:\n{absent}:6:\n", "mine": f"{me}:6:\n"}
    with place() as at:
        for name, text in texts.items():
            (at.here / name).write_text(text, encoding="utf-8")
        before = at.beside()
        for words, told in (
            (("--ownertrust", "none"), "no key is ultimately trusted"),
            (("--ownertrust", "bad"), r"wot ownertrust: err ownertrust 1 BadShape: x"),
            (("--ownertrust", "absent"), f"the ultimately trusted key {absent} is not in the keyring"),
            (("--root", bob), f"{bob} is not ultimately trusted"),
            (("--root", " ".join(re.findall("....", bob)).lower()), f"{bob} is not ultimately trusted"),
            (("--root", bob[:20]), f"--root {bob[:20]}: a fingerprint has 40 or 64 hexadecimal digits"),
            (("--root", "alice@example.org"), "--root alice@example.org: no fingerprint"),
            (("--options", "pgp 1 3 x 2"), "--options pgp 1 3 x 2: err bad-argument 4; give --options as they are in gpg: trust-model (pgp or classic), completes-needed, "
             "marginals-needed, max-cert-depth and min-cert-level"),
            (("--options", "tofu 1 3 5 2"), "--options tofu 1 3 5 2: err bad-argument 1; give --options as they are in gpg: trust-model (pgp or classic), completes-needed, "
             "marginals-needed, max-cert-depth and min-cert-level"),
            (("--check", "65"), "wot export failed"),
            (("--mode", "055"), "--mode 055: three octal digits, the first of them 7"),
            (("--keyring", "nowhere"), f"{at.here}/nowhere: can't be read"),
            (("",), "the name of the store is empty"),
            (("--store", ""), "--store: a value is missing"),
            (("--root", ""), "--root: a value is missing"),
            (("--store", "a", "b"), "one store, and not more"),
            (("--store", "a", "--store", "b"), "one store, and not more"),
        ):
            with at.failing_gpg(LISTS, "touch asked; exit 2"):
                done = at.run("wot-sync", *words)
            left = [name for name in at.beside() if name not in (*before, "store.lock")]
            yield " ".join(words), (done.returncode, done.stderr.splitlines()[-1:], left), (2, [f"wot-sync: {told}"], [])
        (at.here / "hand").mkdir()
        (at.here / "linked").symlink_to("hand")
        for name in ("hand", "linked"):
            done = at.run("wot-sync", name)
            refused = f"wot-sync: {at.here}/{name} is no link that a sync made: move it away, or name another place\n"
            yield f"a store that is {name}", (done.returncode, done.stderr, os.listdir(at.here / name)), (2, refused, [])
        roots = [f"0x{me}", " ".join(re.findall("....", me)).lower()]
        done = at.run("wot-sync", *(word for root in roots for word in ("--root", root)), "--store", "elsewhere")
        yield "as gpg prints it, and a store that is named", (done.returncode, done.stderr, (at.here / "elsewhere" / "wot.0").exists()), (0, "", True)
        with at.stand_in("gpgconf", "", "exit 1"), at.stand_in("gpg", "", "exit 127"):
            yield "no gpg", at.status("wot-sync"), 2
        yield "a name in the nightly run", [at.status("wot-nightly", *words) for words in (("",), ("--store", ""), ("--store", "a", "."))], [2, 2, 2]


def warnings():
    """What is told of beside a store that is made."""
    old = expired_root()
    me = primaries()[0]
    with place() as at:
        (at.here / "old").write_text(f"{old}:6:\n", encoding="utf-8")
        (at.here / "both").write_text(f"{old}:6:\n{me}:6:\n", encoding="utf-8")
        dead = "wot-sync: no ultimately trusted key is live, and nobody is valid: {} {}\n"
        done = at.run("wot-sync", "--ownertrust", "old")
        yield "a root that is expired", (done.returncode, done.stderr), (0, dead.format(old, "expired on 2020-12-31"))
        done = at.run("wot-sync", "--ownertrust", "both")
        yield "and one that isn't", (done.returncode, done.stderr), (0, "")
        with at.failing_gpg("--list-keys", 'REAL "$@" | sed "s/^pub:[^:]*:/pub:r:/"'):
            done = at.run("wot-sync")
        yield "a root that is revoked", (done.returncode, done.stderr), (0, dead.format(me, "is revoked"))
        conf = pathlib.Path(os.environ["GNUPGHOME"]) / "gpg.conf"
        for model, told in (("pgp", False), ("direct", True), ("tofu", True)):
            conf.write_text(f"trust-model {model}\n", encoding="utf-8")
            done = at.run("wot-sync")
            yield f"the model {model}", (done.returncode, f"gpg's trust-model is {model}, and the letters here are those of pgp" in done.stderr), (0, told)
        for text, words, in_gpg, here, given in (
            ("marginals-needed 4\nmin-cert-level 3\n", (), "pgp, completes-needed 1, marginals-needed 4, max-cert-depth 5", "pgp 1 3 5", "pgp 1 4 5 2"),
            ("trust-model classic\ncompletes-needed 2\n", ("--options", "classic 1 3 5 3"), "classic, completes-needed 2, marginals-needed 3, max-cert-depth 5", "classic 1 3 5", "classic 2 3 5 3"),
            ("max-cert-depth 4\n", ("--options", "classic 1 3 4 2"), None, None, None),
            ("trust-model pgp\nmax-cert-depth 4\n", ("--options", "pgp 1 3 4 2"), None, None, None),
        ):
            conf.write_text(text, encoding="utf-8")
            told = f"wot-sync: gpg has trust-model {in_gpg}, and the letters here are by {here}: give --options as they are in gpg, '{given}'\n" if given else ""
            done = at.run("wot-sync", *words)
            yield f"the numbers of gpg.conf {text}", (done.returncode, done.stderr), (0, told)
            gpg("--check-trustdb")
            done = at.run("wot-sync", *words)
            yield f"the numbers of its trust database {text}", (done.returncode, done.stderr), (0, told)
        gpg("--check-trustdb")
        alone = primaries()[3]
        conf.write_text(f"trusted-key {alone}\n", encoding="utf-8")
        told = f"wot-sync: gpg trusts {alone} ultimately, and not by its ownertrust, as by trusted-key in gpg.conf: here it is no root\n"
        yield "a trusted key of gpg.conf", [(done.returncode, done.stderr) for done in (at.run("wot-sync"), at.run("wot-sync", "--ownertrust", "both"))], [(0, told), (0, "")]
        conf.unlink()
        gpg("--check-trustdb")


def edits():
    """A sync says where the store that it replaces has edits of its own, and only there."""
    _, alice, _, carol = primaries()[:4]
    with synced() as at:
        run(f"list\ncheck\nexport\nwhy {alice} 1\ntrust {carol} x\n", where=at.here / "store")
        done = at.run("wot-sync")
        yield "none", (done.returncode, done.stderr), (0, "")
        run(f"trust {carol} f\n", where=at.here / "store")
        former = os.readlink(at.here / "store")
        done = at.run("wot-sync", "--check", "1")
        told = re.fullmatch(rf"wot-sync: the former store was written to since a sync made it, .*\bstays as {at.here}/{former}: wot export there .*\n", done.stderr)
        yield "one", (done.returncode, told is not None), (0, True)
        yield "it is still there", f"{carol}:5:" in run("export\n", where=at.here / former).stdout.decode(), True
        done = at.run("wot-sync")
        yield "a store that a sync compacted", (done.returncode, done.stderr), (0, "")


def modes():
    """The store's permissions, and who may not go there."""
    with place() as at:
        def permissions():
            return [oct(path.stat().st_mode & 0o777) for path in (at.here / "store", at.here / "store" / "wot.0", at.here / "store" / "wot.1")]
        at.status("wot-sync")
        yield "of its own", permissions()[0], "0o700"
        yield "for others", (at.status("wot-sync", "--mode", "755"), permissions()), (0, ["0o755", "0o644", "0o644"])
        yield "for a group", (at.status("wot-sync", "--mode", "770"), permissions()), (0, ["0o770", "0o660", "0o660"])
        if os.getuid() == 0:
            at.here.chmod(0o755)
            at.tools.chmod(0o755)
            for mode, told in (("700", "Permission denied"), ("755", "may not be written")):
                at.status("wot-sync", "--mode", mode)
                done = at.run(sys.executable, "-c", AS_NOBODY, str(CONTRIB / "wot-in"), "list")
                yield f"another user, by {mode}", (done.returncode, done.stdout, told in done.stderr), (2, "", True)


@contextlib.contextmanager
def slow_gpg(at, seconds):
    """A gpg that takes so many seconds before it lists, by a clock that runs faster."""
    slept = at.here / "slept"
    slept.touch()
    waiting = f'while [ "$(wc -l < {slept})" -lt {seconds} ]; do {shutil.which("sleep")} 0.05; done; REAL "$@"'
    with at.stand_in("sleep", "", f"echo >> {slept}; exec REAL 0.01"), at.failing_gpg(LISTS, waiting):
        yield


def on_a_terminal(at, *words, **names):
    """What a program writes to a terminal that is its standard input and error, and its status."""
    ours, theirs = pty.openpty()
    with subprocess.Popen(words, stdin=theirs, stdout=theirs, stderr=theirs, cwd=at.here, env={**at.environment, **names}, start_new_session=True) as child:
        os.close(theirs)
        told = b""
        with contextlib.suppress(OSError):
            while part := os.read(ours, 4096):
                told += part
        os.close(ours)
        return child.wait(), told.decode().replace("\r\n", "\n")


def terminal():
    """On a terminal a sync tells that it is at work."""
    with place() as at, slow_gpg(at, 25):
        status, told = on_a_terminal(at, "wot-sync")
        lines = told.splitlines()
        yield "lines", (status, len(lines) > 1), (0, True)
        yield "of how long, and of keys", [line for line in lines if not re.fullmatch(r"wot-sync: gpg has checked signatures for \d+0 seconds, \d+ keys so far", line)], []
        done = at.run("wot-sync")
        yield "and else not", (done.returncode, done.stderr), (0, "")
    with synced() as at:
        names = {"SHELL": shutil.which("pwd")}
        there = os.path.realpath(at.here / "store")
        yield "a shell in the store", on_a_terminal(at, "wot-in", **names), (0, f"{there}\n")
        yield "and one in the store that is named", on_a_terminal(at, "wot-in", "--store", f"{at.here}/store", WOT_STORE="none", **names), (0, f"{there}\n")


def interrupted(at, *words):
    """The status of a program that gets a Ctrl-C while gpg lists, and what it said."""
    with at.failing_gpg(LISTS, "touch asked; sleep 30"):
        with subprocess.Popen(words, cwd=at.here, env=at.environment, start_new_session=True, stdout=subprocess.PIPE, stderr=subprocess.PIPE, text=True) as child:
            while child.poll() is None and not (at.here / "asked").exists():
                time.sleep(0.02)
            time.sleep(0.2)
            os.killpg(child.pid, signal.SIGINT)
            _, told = child.communicate(timeout=60)
    (at.here / "asked").unlink()
    return child.returncode, told


def control_c():
    """A Ctrl-C ends a program with 130 and without a traceback; the store is as it was, and nothing is left."""
    with synced() as at:
        at.status("wot-nightly", ".")
        before, letters = os.readlink(at.here / "store"), at.letters()
        for words in (("wot-sync",), ("wot-nightly", ".")):
            yield words[0], interrupted(at, *words), (130, "")
            yield f"{words[0]}: the store", (os.readlink(at.here / "store") == before, at.letters() == letters, at.made()), (True, True, 2)


def listing_file(at, name, content):
    (at.here / name).write_bytes(content)
    return name


def importing():
    """Files that are no checked listing are refused with their reason, and change nothing."""
    me, alice, _, _ = primaries()[:4]
    lists = ("--with-colons", "--fixed-list-mode")
    good = gpg(LISTS, *lists).encode()
    binary = subprocess.run(["gpg", "--export"], capture_output=True, check=True).stdout
    home = pathlib.Path(os.environ["GNUPGHOME"])
    lonely = "".join(key(name) for name in "AB").encode()
    with synced() as at:
        store = at.here / "store"

        def sides():
            return [(store / name).read_bytes() for name in ("wot.0", "wot.1")]
        before = sides()
        for name, content, told in (
            ("a keyring", binary, "is a binary keyring; "),
            ("a keybox", (home / "pubring.kbx").read_bytes(), "is a binary keyring; "),
            ("an armoured one", gpg("--armor", "--export").encode(), "is armoured keys or a message; "),
            ("a listing for people", gpg("--list-keys").encode(), "is a listing for people; "),
            ("one with certifications", gpg(LISTS).encode(), "is a listing for people; "),
            ("an ownertrust text", gpg("--export-ownertrust").encode(), "is an ownertrust text; wot ownertrust takes it"),
            ("a listing that was not checked", gpg("--list-sigs", *lists).encode(), "is a listing whose signatures were not checked; "),
            ("a listing without signatures", gpg("--list-keys", *lists).encode(), "is a listing without signatures, "),
            ("a listing of keys that nobody certified", lonely + by("A").replace("sig:!", "sig:?").encode(), "no certification would be kept: "),
            ("nothing", b"", "is empty"),
            ("blank lines", b"\n \n", "is empty"),
            ("a text", b"root:x:0:0:root:/root:/bin/sh\n", "has no key; "),
            ("a listing that lacks its last newline", good[:-1], "ends within a line: it was cut"),
            ("a listing that was cut", good[:-20], "ends within a line: it was cut"),
            ("a listing that was cut at its first key", good[:good.find(b"\nfpr:")], "ends within a line: it was cut"),
            ("a bad listing", good + b"pub:\n", f"listing {good.count(10) + 1} ShortRecord: pub:"),
            ("a line that would end the block", good + b".\n", "a line of the block would end it"),
        ):
            file = listing_file(at, "file", content)
            done = at.run("wot-import", file)
            yield name, (done.returncode, done.stdout, done.stderr.startswith(f"wot-import: file: {told}"), sides() == before), (2, "", True, True)
        run(f"delete {alice}\n", where=store)
        done = at.run("wot-import", listing_file(at, "good", good))
        yield "a checked listing", (done.returncode, re.fullmatch(r"ok keys \d+ kept 2 passed \d+\n", done.stdout) is not None, done.stderr), (0, True, "")
        yield "its letters", at.letters()["Alice"], "f"
        before = sides()
        taken = key("A").replace(fingerprint("A"), "1" * 24 + me[-16:]).replace(fingerprint("A")[-16:], me[-16:]) + key("B", by("A").replace(fingerprint("A")[-16:], me[-16:]))
        done = at.run("wot-import", listing_file(at, "taken", taken.encode()))
        yield "one that the store refuses", (done.returncode, done.stderr, sides() == before), (2, f"wot-import: key-id-taken {me[-16:]}\n", True)
        yield "a listing that comes by a pipe", at.run("sh", "-c", "cat good | wot-import /dev/stdin").returncode, 0
        done = at.run("wot-import", "--store", "nowhere", "good")
        yield "no store", (done.returncode, "nowhere" in done.stderr, (at.here / "nowhere").exists()), (2, True, False)
        yield "no file", (at.status("wot-import", "none"), at.status("wot-import")), (2, 2)


def going_in():
    """A command is asked of the store that is meant, whatever folder one is in, and none is made."""
    with place() as at:
        a = fingerprint("A")
        (at.here / "store").mkdir()
        run(trust("A", "u") + imported(key("A")), where=at.here / "store")
        (at.here / "empty").mkdir()
        listed = run("list\n", where=at.here / "store").stdout.decode()
        yield "a command", at.run("wot-in", "list").stdout, listed
        yield "its words and its status", [at.status("wot-in", *words) for words in (("list", a), ("list", "x"), ("check", "--workers", "2"), ("trust", a, "-"))], [0, 1, 0, 2]
        counted = [at.run("wot-in", *words).stdout for words in (("check",), ("--workers", "2", "check"), ("--workers=2", "check"), ("check", "--workers", "2"))]
        yield "workers", (counted, counted[0].startswith("tally:")), (counted[:1] * 4, True)
        yield "workers of a session", at.run("wot-in", "--workers", "2", given="list\n").stdout, listed
        yield "no workers", [at.status("wot-in", *words) for words in (("--workers", "0", "list"), ("--workers", "x"), ("--workers", "2", "list", "--workers", "2"))], [2, 2, 2]
        yield "a block", at.run("wot-in", "import", given=key("B", "A")).stdout, "ok keys 1 kept 1 passed 0\n"
        yield "a session", at.run("wot-in", given=f"trust {a} o\nexport\n").stdout, "ok\nok\n"
        yield "the program by a path from here", at.run("wot-in", "export", WOT=os.path.relpath(at.tools / "wot", at.here)).stdout, "ok\n"
        yield "the store that is named", at.run("wot-in", "--store", "store", "export", WOT_STORE="empty").stdout, "ok\n"
        for where in ("empty", "nowhere", "store/wot.0"):
            done = at.run("wot-in", "--store", where, "list")
            yield where, (done.returncode, done.stdout, where in done.stderr), (2, "", True)
        yield "none is made", (os.listdir(at.here / "empty"), at.beside()), ([], ["empty", "store"])
        yield "no program", (at.run("wot-in", "list", WOT="none").stderr), "wot-in: none: No such file or directory\n"


def nights():
    """What a nightly run tells first, the reasons of what fell, and where nobody looked in time."""
    me, alice, bob, carol = primaries()[:4]
    with place() as at:
        def night(*words):
            done = at.run("wot-nightly", "--store", "store", *words)
            return done.returncode, done.stdout.splitlines(), done.stderr
        yield "the store that is named", (night()[0], at.beside()), (1, ["letters", "store", "store.lock", "store.sync-made"])
        status, lines, _ = night("--", "--options", "pgp 2 3 5 2")
        below = lines[lines.index(f"[  full  ] -> [marginal] Bob <bob@example.org> {bob}") + 1:]
        reasons = "\n".join(itertools.takewhile(lambda line: line.startswith(" " * 10), below))
        yield "why something fell", (status, "Alice <alice@example.org>" in reasons, "1 of 2" in reasons), (1, True, True)
        own(FULL, ULTIMATE, UNDEFINED, UNDEFINED)
        status, lines, _ = night()
        yield "a root that fell", (status, lines[0]), (1, f"a root fell: Me <me@example.org> {me} is no longer ultimately trusted")
        own(ULTIMATE, FULL, UNDEFINED, UNDEFINED)
        yield "no root fell that only full letters hang on", [line for line in night()[1] if line.startswith("a root")], [f"a root fell: Alice <alice@example.org> {alice} is no longer ultimately trusted"]
        yield "nothing", (night()[0], len(night()[1])), (0, 1)
        with at.failing_gpg(LISTS, f"REAL \"$@\" | sed '/^fpr:*{bob}:/a uat:-::::1::AB::1 152:'"):
            yield "a photo", night()[1][0], f"[  new   ] -> [ unknown] [photo, 152 bytes] {bob}"
        yield "that is gone", night()[1][0], f"[ unknown] -> [  gone  ] 1 152 {bob}"
        yield from old_roots(at)
        run("date 500\n" + imported(key("A", expires=1000)), where=at.here / "store")
        with at.failing_gpg(LISTS, "exit 2"):
            status, lines, told = night()
        late = "past its next check, 1970-01-01 00:16:40 UTC"
        yield "past the next check, and gpg fails", (status, lines, f"wot-nightly: the store is {late}: its letters may be others by now\n" in told), (2, [], True)
        status, lines, told = night()
        yield "past the next check", (status, lines[0]), (0, f"the former store was {late}: what was asked since may have had another answer")
        yield "its edits", "wot export there" in told, True
        yield "nobody who is new falls", carol in at.run("wot-in", "list").stdout, True


def old_roots(at):
    """What is told of the store that stays where a sync failed: by which roots it answers that are gpg's no longer, and that its date is still to come."""
    me, alice = primaries()[:2]
    named = f"Me <me@example.org> {me}"

    def told(*words):
        done = at.run("wot-nightly", "--store", "store", *words)
        lines = [line for line in done.stderr.splitlines() if line.startswith("wot-nightly: ")]
        return done.returncode, done.stdout, lines
    at.status("wot-sync")
    (at.here / "none").write_text(f"{me}:6:\n{alice}:5:\n{me}:5:\n", encoding="utf-8")
    (at.here / "disabled").write_text(f"{me}:134:\n", encoding="utf-8")
    still = f"wot-nightly: the store still answers by the root {named}, which is no longer ultimately trusted"
    with at.failing_gpg(LISTS, "exit 2"):
        yield "a root that gpg has too", told(), (2, "", [])
        yield "a root that is disabled there", told("--", "--ownertrust", "disabled"), (2, "", [])
        yield "an ownertrust text without it", told("--", "--root", me, "--ownertrust", "none"), (2, "", [still])
        own(FULL, ULTIMATE, UNDEFINED, UNDEFINED)
        yield "a root that gpg has no more", told(), (2, "", [still])
        run(f"trust {alice} u\n", where=at.here / "store")
        yield "of two", told(), (2, "", [still])
        own(FULL, FULL, UNDEFINED, UNDEFINED)
        both = sorted([still, still.replace(named, f"Alice <alice@example.org> {alice}")])
        yield "both", sorted(told()[2]), both
    status, out, lines = told()
    yield "since gpg has no root", (status, out, sorted(lines)), (2, "", both)
    own(ULTIMATE, FULL, UNDEFINED, UNDEFINED)
    at.status("wot-sync")
    with at.failing_gpg("--export-ownertrust", "exit 2"):
        yield "no ownertrust", told(), (2, "", [f"wot-nightly: the store answers by the root {named}; whether that is ultimately trusted still can't be said"])
    run("date 4000000000\n", where=at.here / "store")
    late = "of a date that is still to come, 2096-10-02 07:06:40 UTC"
    with at.failing_gpg(LISTS, "exit 2"):
        done = told()
    yield "a date to come, and gpg fails", done[2][-1:], [f"wot-nightly: the store is {late}: its letters may be others by now"]
    yield "a date to come", told()[1].splitlines()[0], f"the former store was {late}: what was asked since may have had another answer"
    (at.here / "store").unlink()
    with at.failing_gpg(LISTS, "exit 2"):
        yield "no store", told(), (2, "", [])
    at.status("wot-nightly", "--store", "store")


def completed():
    """Names, letters and options, each as the programs have them."""
    script = 'source "$1"; part=$2; COMP_LINE=$3; COMP_POINT=${#3}; shift 3; COMP_WORDS=("$@"); COMP_CWORD=$(($# - 1)); ' \
        '"$(complete -p "$1" | grep -o "_wot[a-z_]*" | head -n 1)" "$1" "$part"; printf "%s\\n" "${COMPREPLY[@]}"'
    with place() as at:
        def offered(*words, line=None, part=None, where="."):
            given = [words[-1] if part is None else part, line or " ".join(words), *words]
            done = at.run("sh", "-c", 'cd "$0" && exec "$@"', where, "bash", "-c", script, "bash", str(CONTRIB / "wot.bash"), *given)
            return done.stdout.split("\n")[:-1] if done.stdout.strip() else []
        (at.here / "store").mkdir()
        run(trust("A", "u") + imported(key("A"), key("B", "A"), key("C", text="Carol"), key("D", text="Two Words")), where=at.here / "store")
        yield "names", offered("wot-list", ""), ["a@example.org", "b@example.org", "Carol"]
        yield "a part of one", offered("wot-why", "b"), ["b@example.org"]
        yield "behind what bash splits", offered("wot-why", "b", "@", "ex", line="wot-why b@ex", part="@ex"), ["@example.org"]
        yield "of a store that is named", offered("wot-list", "--store", "none", ""), []
        yield "for the module's program", offered("wot.py", "a"), ["a@example.org"]
        yield "of a signer", offered("wot-verify", "--by", "a"), ["a@example.org"]
        yield "letters", offered("wot-verify", "--want", ""), list("ufmq-")
        yield "what is supposed of whom", [offered("wot-suppose", *words) for words in (("b",), ("b@example.org", "n"), ("--date", ""))], [["b@example.org"], ["never", "none"], ["next"]]
        yield "an edit that is supposed", [offered("wot-in", "suppose", *words) for words in (("",), ("trust", "0" * 38 + "b"), ("trust", fingerprint("B"), "f"), ("options", "c"), ("date", ""))], [
            ["trust", "date", "options"], [fingerprint("B")], ["f"], ["classic"], []]
        yield "on whom a letter hangs", (offered("wot-critical", "Ca"), offered("wot-in", "critical", "0" * 38 + "b")), (["Carol"], [fingerprint("B")])
        yield "of an earlier state", [offered("wot-in", "at", *words) for words in (("",), ("1", ""), ("1", "list", "0" * 38 + "b"), ("1", "why", "0" * 38 + "b"), ("1", "list", fingerprint("B"), ""))], [
            [], ["list", "why"], [fingerprint("B")], [fingerprint("B")], []]
        yield "whose history", [offered("wot-history", *words) for words in (("Ca",), ("--since", ""), ("--al",))], [["Carol"], [], ["--all"]]
        yield "options", [offered(name, "--sto") for name in ("wot-nightly", "wot-sync", "wot-import", "wot.py")], [["--store"]] * 4
        yield "of the package", offered("deb", "--"), ["--version", "--help"]
        yield "a command there", offered("wot-in", "ex"), ["export"]
        yield "a fingerprint there", offered("wot-in", "list", "0" * 38 + "b"), [fingerprint("B")]
        yield "no made keys where a store is", ["sample" in offered("wot", "", where=where) for where in (".", "store")], [True, False]
        yield "none is made", at.beside(), ["store"]


LINK = re.compile(r"\]\(([^)\s#]+)[^)]*\)")


def packaged():
    """The package has a man page of each program, links that lead somewhere in it, no licence, and leaves nothing behind."""
    with place() as at:
        name = at.run("deb", "--version", "1.2", PROGRAM).stdout.strip()
        yield "unpacked", at.status("dpkg-deb", "-R", name, "root"), 0
        top = at.here / "root"
        documents = top / "usr/share/doc/wot"
        dead = [
            f"{path.relative_to(documents)}: {link}" for path in documents.rglob("*.md")
            for link in LINK.findall(re.sub(r"^```.*?^```$", "", path.read_text(encoding="utf-8"), flags=re.M | re.S))
            if not re.match("https?:", link) and not (path.parent / link).exists()
        ]
        yield "links", dead, []
        yield "a licence", "No licence is given yet" in (documents / "copyright").read_text(encoding="utf-8"), True
        programs = {path.name for path in (top / "usr/bin").iterdir()}
        pages = {path.name.removesuffix(".1.gz"): gzip.decompress(path.read_bytes()).decode() for path in (top / "usr/share/man/man1").iterdir()}
        yield "a man page of each program", set(pages), programs
        lacking = {
            name: [word for word in re.findall(r"--[a-z-]+", at.run(name, "--help").stdout) if word.replace("-", r"\-") not in pages[name]]
            for name in programs - {"wot"}
        }
        yield "with its options", {name: words for name, words in lacking.items() if words}, {}
        yield "and nobody's home", [name for name, page in pages.items() if str(at.here) in page], []
        if shutil.which("man") and shutil.which("groff"):
            for program, page in pages.items():
                (at.here / "page.1").write_text(page, encoding="utf-8")
                yield f"the page of {program} is read", at.run("man", "--warnings", "-Tutf8", "-Z", "-l", "page.1").stderr, ""
        names = {path.name for path in (top / "usr/share/bash-completion/completions").iterdir()}
        yield "completions", names, programs - {name for name in programs if "gpg" in name}
        (at.here / "again").mkdir()
        at.status("deb", "--version", "1.2", PROGRAM, "again")
        yield "the same package again", (at.here / "again" / name).read_bytes() == (at.here / name).read_bytes(), True
        # dpkg gives the files to root
        if os.getuid() == 0:
            yield from removed(at, name)


def removed(at, name):
    """What a package leaves behind that was put into a place of its own, and whose modules were compiled there since."""
    other = at.here / "other"
    for folder_of_dpkg in ("info", "updates"):
        (other / "var/lib/dpkg" / folder_of_dpkg).mkdir(parents=True)
    (other / "var/lib/dpkg/status").touch()
    dpkg = ["dpkg", f"--root={other}", "--force-script-chrootless", "--force-depends", "--log=/dev/null"]
    yield "it is installed", at.status(*dpkg, "--install", name), 0
    at.run(sys.executable, "-m", "compileall", "-q", str(other / "usr/lib/python3/dist-packages"), str(other / "usr/share/wot"), PYTHONDONTWRITEBYTECODE="")
    yield "modules are compiled", len(list(other.rglob("*.pyc"))), 5
    yield "and removed", (at.status(*dpkg, "--remove", "wot"), sorted(path.name for path in other.iterdir())), (0, ["var"])


# what needs no keyring of gpg, each with the tool that it needs
ALONE = {helps: "sh", going_in: "sh", completed: "bash", packaged: "dpkg-deb"}
# the last one adds a key to the keyring
OVER_GPG = [early, edits, modes, terminal, control_c, importing, *([nights] if contrib.KNOWS_CHECK else []), warnings]


def over_gpg():
    """How many things were looked at that need a keyring of gpg, what was wrong, and what is left out."""
    with folder() as home:
        os.environ["GNUPGHOME"] = home
        try:
            contrib.make_keyring()
            return *checked(*OVER_GPG), []
        except contrib.NoGnuPG as fault:
            return 0, [], [f"what needs a gpg keyring: {fault}"]
        finally:
            if shutil.which("gpgconf"):
                subprocess.run(["gpgconf", "--kill", "all"], capture_output=True, check=False)


def main():
    count, wrong = checked(*(check for check, tool in ALONE.items() if shutil.which(tool)))
    more, faults, left = over_gpg()
    left += [f"{check.__name__}: no {tool}" for check, tool in ALONE.items() if not shutil.which(tool)]
    left += [] if contrib.KNOWS_CHECK else ["nights: the program does not know check and compact"]
    if wrong + faults:
        sys.exit("\n".join(wrong + faults).replace("contrib: ", "syncing: "))
    print("; ".join([f"syncing: {count + more} ok", *(f"skipped: {one}" for one in left)]))


if __name__ == "__main__":
    main()
