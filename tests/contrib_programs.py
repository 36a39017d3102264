#!/usr/bin/env python3
"""Runs the programs of contrib/ that ask a store, and their module, where it is not plain: what is written goes into a device or a link, the
store is of a past day, held by another run or not ours to write, a name is nobody's, a signature is not accepted.

It skips, and says so, what needs gpg, chromium, a node of a device or a user without rights, where there is none.
"""
import contextlib
import functools
import html
import os
import pathlib
import re
import shutil
import signal
import stat
import subprocess
import sys
import threading
import time

from contrib import PROGRAMS, NoGnuPG, checked, gpg, make_keyring, place, primaries, raised, session, synced, wot, wot_explain
from reference.program import PROGRAM, by, fingerprint, folder, imported, key, key_id, run, trust

NOW = str(int(time.time()))
# root may write any file; without its capabilities it is a user as others are
WITHOUT_RIGHTS = ["setpriv", "--bounding-set", "-all", "--inh-caps", "-all"] if os.geteuid() == 0 else []
CHROMIUM = shutil.which("chromium")
DEVICES = {"null": (1, 3), "full": (1, 7)}


@contextlib.contextmanager
def store_of(given):
    """A place whose own folder has a store."""
    with place() as at:
        run(given, where=at.here)
        at.environment["WOT_STORE"] = str(at.here)
        yield at


def can_make_nodes():
    with folder() as where:
        try:
            os.mknod(os.path.join(where, "null"), stat.S_IFCHR | 0o666, os.makedev(*DEVICES["null"]))
            return bool(open(os.path.join(where, "null"), "wb").close() is None)
        except OSError:
            return False


def into(at, call):
    """What stands there after each program wrote: devices, a link, a fifo, a folder; and the mode of a file."""
    if can_make_nodes():
        for name, number in DEVICES.items():
            os.mknod(at.here / name, stat.S_IFCHR | 0o666, os.makedev(*number))
        yield "a device", (call("null"), (at.here / "null").is_char_device()), (0, True)
        yield "a device that is full", (call("full"), (at.here / "full").is_char_device()), (2, True)
    os.mkfifo(at.here / "fifo")
    with subprocess.Popen(["cat", at.here / "fifo"], stdout=subprocess.PIPE) as reader:
        yield "a fifo", (call("fifo"), len(reader.communicate(timeout=60)[0]) > 7, (at.here / "fifo").is_fifo()), (0, True, True)
    (at.here / "there").mkdir()
    (at.here / "link").symlink_to("there/file")
    yield "a link to nothing", (call("link"), (at.here / "link").is_symlink(), (at.here / "there" / "file").stat().st_size > 7), (0, True, True)
    (at.here / "there" / "file").write_bytes(b"")
    (at.here / "there" / "file").chmod(0o604)
    yield "a link to a file", (call("link"), (at.here / "link").is_symlink(), (at.here / "there" / "file").stat().st_size > 7), (0, True, True)
    yield "its mode", stat.S_IMODE((at.here / "there" / "file").stat().st_mode), 0o604
    yield "a folder", call("there"), 2
    yield "nothing else", sorted(os.listdir(at.here / "there")), ["file"]


def outputs():
    """What the page is written into."""
    with store_of(session("levels")) as at:
        yield from into(at, lambda name: at.status("wot-report", name))
        done = at.run("sh", "-c", "echo former > all; wot-report /dev/stdout >> all; head -n 2 all")
        yield "what is open already", done.stdout, "former\n<!DOCTYPE html>\n"


OLD = "date 500\n" + trust("A", "u") + imported(key("A"), key("B", "A", expires=1000).replace("scSC", "scESC"))


def stale():
    """Past the next check, or an age, people are warned and programs get no letter."""
    b, address = fingerprint("B"), "b@example.org"
    for name, given, words, told in (
        ("past the next check", OLD, (), "and the next check is at 1970-01-01 00:16:40 UTC: run wot-sync\n"),
        ("too old", OLD.replace("expires=1000", "").replace(":1000:1000:", ":1000::"), ("--max-age", "3"), "which is more than 3 days ago: run wot-sync\n"),
    ):
        with store_of(given) as at:
            for program in (("wot-list",), ("wot-why", address), ("wot-critical", address), ("wot-history", address), ("wot-suppose", address, "full"), ("wot-report", "page")):
                done = at.run(program[0], *words, *program[1:])
                yield f"{name}: {program[0]}", (done.returncode, done.stderr), (0, f"{program[0]}: the store tells of 1970-01-01 00:08:20 UTC, {told}")
            yield f"{name}: the page", "These letters may be others now" in (at.here / "page").read_text(encoding="utf-8"), True
            yield f"{name}: the module as a program", (at.status("wot.py", *words, address), at.run("wot.py", *words, "--stale", address).stdout), (2, f"f {b}\n")
            with wot.Wot(at.here, PROGRAM, max_age=3) as store:
                calls = [functools.partial(store.letter_of, b, address), *(functools.partial(call, address) for call in (store.letters, store.letter, store.encrypt_to))]
                yield f"{name}: the module", [raised(call)[0] for call in calls], ["Stale"] * 4
                absent = functools.partial(store.letter_of, fingerprint("F"), address)
                yield f"{name}: a key that may be in one of today", (raised(absent)[0], absent(stale=True)), ("Stale", "-")
                yield f"{name}: asked all the same", [call(stale=True) for call in calls], ["f", {b: "f"}, "f", [b]]
    with store_of(OLD + f"date {NOW}\n" + imported(key("B", "A"))) as at:
        yield "of today", (at.run("wot-list").stderr, at.run("wot.py", "--max-age", "1", address).stdout), ("", f"f {b}\n")


def signers():
    """The letter of an address on the key that signed; and to which key a letter is encrypted first."""
    texts = {"B": "Bob <bob@example.org>", "C": "Bob <bob@example.org>", "D": "Dan <bob@example.org>"}
    with store_of(trust("A", "u") + trust("E", "m") + imported(
        key("A"), key("E", "A"), key("B", "A", text=texts["B"]), key("C", text=texts["C"]), key("D", "A", text=texts["D"])) + f"disable {fingerprint('D')}\n") as at:
        with wot.Wot(at.here, PROGRAM) as store:
            yield "who signed", [store.letter_of(fingerprint(name), "BOB@example.org") for name in "BCDAF"], ["f", "-", "-", "-", "-"]
            yield "any key", store.letter("bob@example.org"), "f"
        for name, wanted in (("B", ("f", 0)), ("C", ("-", 0)), ("D", ("-", 0)), ("A", ("-", 1)), ("F", ("-", 1))):
            asked = at.run("wot.py", "--signer", fingerprint(name), "bob@example.org")
            yield f"as a program, {name}", (asked.stdout, asked.returncode), (f"{wanted[0]} {fingerprint(name)}\n", wanted[1])
        spaced = "0x" + " ".join(re.findall("....", fingerprint("B"))).lower()
        yield "as gpg prints it", at.run("wot.py", "--signer", spaced, "bob@example.org").stdout, f"f {fingerprint('B')}\n"
        for name in ("", "Bob", key_id("B")):
            asked = at.run("wot.py", "--signer", name, "bob@example.org")
            yield f"no fingerprint: {name}", (asked.returncode, asked.stdout, asked.stderr.splitlines()[-1]), (
                2, "", f"wot.py: error: --signer {name}: a fingerprint has 40 or 64 hexadecimal digits")
    keys = [key(name, "A", text="Bob <bob@example.org>").replace("scSC", "scESC") for name in ("11", "22", "33", "44")]
    keys[1], keys[3] = keys[1].replace(":1000:", ":3000:", 1), keys[3].replace(by("A"), "")
    with store_of(trust("A", "u") + trust("22", "-") + trust("44", "u") + imported(key("A"), *keys)) as at, wot.Wot(at.here, PROGRAM) as store:
        yield "the best, then the latest, then the least", store.encrypt_to("bob@example.org"), [fingerprint(name) for name in ("44", "22", "11", "33")]


def held():
    """Another run holds the store: who asks by the module waits for it, and says so where that took too long."""
    with store_of(session("levels")) as at:
        def hold():
            other = subprocess.Popen([PROGRAM], cwd=at.here, stdin=subprocess.PIPE, stdout=subprocess.PIPE)
            other.stdin.write(b"export\n")
            other.stdin.flush()
            while not other.stdout.readline().startswith(b"ok"):
                pass
            return other
        other = hold()
        began = time.monotonic()
        threading.Timer(0.7, lambda: other.communicate(timeout=60)).start()
        with wot.Wot(at.here, PROGRAM, wait=60) as store:
            yield "it waits", (store.letter("hana@example.org"), time.monotonic() - began > 0.6), ("f", True)
        other.wait(timeout=60)
        with hold() as other:
            yield "it was held", raised(lambda: wot.Wot(at.here, PROGRAM, wait=0.2).letter("hana@example.org")), ("Held", "another run of wot holds the store", 5)
            other.communicate(timeout=60)
        yield "nothing is left", at.run("wot-why", "hana@example.org").returncode, 0


def denied():
    """A store that may not be written is asked as a copy, which takes no edit; and what may not be read is told as that."""
    asks = "import sys, wot\nstore = wot.Wot('.', sys.argv[1])\nprint(store.letter('hana@example.org'))\nstore.ask('compact')"
    with store_of(session("levels")) as at:
        (at.here / "tmp").mkdir()
        at.environment["TMPDIR"] = str(at.here / "tmp")
        for path in (at.here / "wot.0", at.here / "wot.1"):
            path.chmod(0o444)
        before = [(at.here / name).read_bytes() for name in wot.FILES]
        for name, mode, files in (("files", 0o755, wot.FILES), ("a folder with one", 0o555, wot.FILES[:1])):
            for file in set(wot.FILES) - set(files):
                (at.here / file).unlink()
            at.here.chmod(mode)
            done = at.run(*WITHOUT_RIGHTS, "wot-why", "hana@example.org")
            yield f"{name}: it is asked", (done.stdout.partition(" <")[0], done.stderr, done.returncode), ("[  full  ] Hana", "", 0)
            done = at.run(*WITHOUT_RIGHTS, sys.executable, "-c", asks, PROGRAM, PYTHONPATH=str(pathlib.Path(wot.__file__).parent))
            yield f"{name}: it takes no edit", (done.stdout, "Denied: " in done.stderr), ("f\n", True)
            yield f"{name}: as it was", [(at.here / name).read_bytes() for name in files], before[:len(files)]
            yield f"{name}: no copy is left", os.listdir(at.here / "tmp"), []
        at.here.chmod(0o755)
        (at.here / "wot.0").chmod(0)
        done = at.run(*WITHOUT_RIGHTS, "wot-list")
        yield "a file that may not be read", (done.returncode, done.stderr), (2, f"wot-list: {at.here}/wot.0: permission denied\n")
        (at.here / "inner").mkdir(mode=0)
        done = at.run(*WITHOUT_RIGHTS, "wot-list", "--store", "inner")
        yield "a folder that may not be entered", (done.returncode, done.stderr), (2, "wot-list: inner: permission denied\n")


def names():
    """What is said where nobody has a name, and what is shown of a photo, of encryption and of who is valid."""
    photo = by("A").join([key("B", text="Bob <bob@example.org>"), "uat:-::::1000::AB::1 152:\n" + by("A")]).replace("scSC", "scESCE")
    text = "Stra\u00dfe \u00c4rger <x@example.org>"
    with store_of(trust("A", "u") + imported(key("A"), photo, key("C", text=text))) as at:
        head = "as of 1970-01-01 00:00:00 UTC; nothing expires\n"
        bob = f"\npub   ed25519 1970-01-01 [SCE]\n      {fingerprint('B')}\nuid           [  full  ] Bob <bob@example.org>\nuid           [  full  ] [photo, 152 bytes]\n"
        yield "a photo", at.run("wot-list", "bob").stdout, head + bob
        mine = f"\npub   ed25519 1970-01-01 [SC] [ownertrust: ultimate]\n      {fingerprint('A')}\nuid           [ultimate] A <a@example.org>\n"
        yield "who is valid", at.run("wot-list", "--valid").stdout, head + mine + bob
        yield "none of these", (at.run("wot-list", "--valid", "x@example.org").stdout, at.status("wot-list", "--valid", "x@example.org")), (head, 1)
        yield "by parts in any case", [at.run("wot-list", part).stdout.count("pub") for part in ("STRASSE", "\u00e4R", "stra\u00dfe", "b <B", "x3a", key_id("B"))], [1, 1, 1, 1, 0, 1]
        for name, wanted in (
            (fingerprint("F"), f"no key of this fingerprint: {fingerprint('F')}; a subkey's is not kept here, gpg -k {fingerprint('F')} shows its primary key"),
            ("0x" + key_id("F"), f"no key of this key ID: 0x{key_id('F')}; a subkey's is not kept here, gpg -k {key_id('F')} shows its primary key"),
            ("ABCDEF01", "nobody of that name: ABCDEF01; a key ID of 8 digits is not looked for, as many keys can have it: gpg -k ABCDEF01 shows the fingerprint"),
            ("nobody", "nobody of that name: nobody"),
        ):
            for program, *more in (("wot-list",), ("wot-why",), ("wot-why-not",), ("wot-critical",), ("wot-history",), ("wot-suppose", "full")):
                done = at.run(program, name, *more)
                yield f"{program} {name}", (done.returncode, done.stderr), (1, f"{program}: {wanted}\n")
    with store_of(trust("A", "u") + imported(key("A"), key("B", "A", text="Bob <b@example.org>"), key("C", text="Bob <b@example.org>"), key("D", "B"))) as at:
        yield "two of one name", [line.split()[-1] for line in at.run("wot-why", "b@example.org").stdout.splitlines() if line[0] == "["], [fingerprint("B"), fingerprint("C")]
        yield "told apart", f"by Bob <b@example.org> ({key_id('B')}), who counts" in at.run("wot-why", "d@example.org").stdout, True


LEVELS = f"""\
[  full  ] Hana <hana@example.org> {fingerprint("22")}
  [ unknown] without the ownertrust of Ada <ada@example.org>, ultimately trusted
  [marginal] without the ownertrust of Cleo <cleo@example.org>, marginally trusted
  [marginal] without the ownertrust of Dan <dan@example.org>, marginally trusted
  [marginal] without the ownertrust of Eve <eve@example.org>, marginally trusted
  [marginal] without the ownertrust of Finn <finn@example.org>, fully trusted
"""
WITHOUT_CLEO = f"""\
if the ownertrust of Cleo <cleo@example.org>, now marginal, were none:
[  full  ] -> [marginal] Hana <hana@example.org> {fingerprint("22")}
[  full  ] -> [marginal] Finn <finn@example.org> {fingerprint("FF")}
2 letters would change
"""
BY_OPTIONS = f"""\
by the options classic 1 3 5 2:
[  full  ] -> [  undef ] Gus <gus@example.org> {fingerprint("11")}
1 letter would change
"""


def supposing():
    """What another ownertrust, other options or a date would change, and on whom a letter hangs; the store stays as it is."""
    with store_of(session("levels")) as at:
        before = [(at.here / name).read_bytes() for name in wot.FILES]
        yield "on whom", at.run("wot-critical", "hana@example.org").stdout, LEVELS
        yield "on the user's own key alone", at.run("wot-critical", "Gus").stdout.splitlines()[1:], ["  [ unknown] without the ownertrust of Ada <ada@example.org>, ultimately trusted"]
        yield "another ownertrust", at.run("wot-suppose", key_id("CC"), "none").stdout, WITHOUT_CLEO
        yield "one that changes nothing", at.run("wot-suppose", "dan@example.org", "full").stdout.splitlines(), [
            "if the ownertrust of Dan <dan@example.org>, now marginal, were full:", "no letter would change"]
        yield "other options", at.run("wot-suppose", "--options", "classic 1 3 5 2").stdout, BY_OPTIONS
        for options, told in (
            ("pgp 1 1 5 2", "its word 3 is to be marginals-needed, 2 to 4294967295"), ("tofu 1 3 5 2", "its word 1 is to be trust-model, pgp or classic"),
            ("pgp 1 3 5", "its word 5 is to be min-cert-level, 1 to 3"), ("pgp 1 3 5 2 2", "it is to have 5 words"), ("", "its word 1 is to be trust-model, pgp or classic"),
        ):
            done = at.run("wot-suppose", "--options", options)
            yield f"options out of their range: {options}", (done.returncode, done.stdout, done.stderr), (2, "", f"wot-suppose: --options {options}: {told}\n")
        yield "options on two lines", at.run("wot-suppose", "--options", "classic 1\n3 5 2").stdout, BY_OPTIONS
        for name in ("1969-12-31", "2106-02-08"):
            yield f"no day of a store's: {name}", at.run("wot-suppose", "--date", name).stderr, f"wot-suppose: {name}: no day from 1970-01-01 to 2106-02-07\n"
        yield "the last day", at.run("wot-suppose", "--date", "2106-02-07").stdout.splitlines()[0], "at 2106-02-07 06:28:15 UTC:"
        done = at.run("wot-suppose", "example.org", "full")
        listed = ", ".join(fingerprint(name) for name in ("11", "22", "AA", "BB", "CC"))
        yield "a name of several", (done.returncode, done.stderr), (1, f"wot-suppose: more than one key has the name example.org: {listed} and 3 more\n")
        yield "nothing expires", (at.status("wot-suppose", "--date", "next"), at.run("wot-suppose", "--date", "next").stderr), (1, "wot-suppose: nothing expires\n")
        yield "no day", at.run("wot-suppose", "--date", "20261231").stderr, "wot-suppose: 20261231: no day of the form 2026-12-31\n"
        for words in ((), ("Hana",), ("Hana", "f"), ("Hana", "full", "--date", "next"), ("--date", "next", "--options", "pgp 1 3 5 2"), ("Hana", "--date", "next")):
            yield f"no usage: {words}", at.status("wot-suppose", *words), 2
        yield "as it was", [(at.here / name).read_bytes() for name in wot.FILES], before
        with wot.Wot(at.here, PROGRAM) as store:
            cleo, hana = fingerprint("CC"), fingerprint("22")
            yield "the module: what would change", store.suppose(f"trust {cleo} o"), [wot.Change(key_id("22"), 1, "f", "m"), wot.Change(key_id("FF"), 1, "f", "m")]
            yield "the module: on whom", store.critical(hana)[:2], [wot.Loss(fingerprint("AA"), "-"), wot.Loss(cleo, "m")]
            yield "the module: refusals", [raised(call)[1] for call in (lambda: store.suppose(f"delete {cleo}"), lambda: store.critical(hana, 2), lambda: store.critical(fingerprint("EF")))], [
                "bad-argument 1", "no-such-user", "no-such-key"]
    with store_of(session("expiring-certification")) as at:
        run("date 3999\n", where=at.here)
        told = at.run("wot-suppose", "--date", "next").stdout
        yield "the next date", told.splitlines(), [
            "at 1970-01-01 01:06:40 UTC:", f"[  full  ] -> [ unknown] B <b@example.org> {fingerprint('B')}", "1 letter would change"]
        yield "the end of a day", at.run("wot-suppose", "--date", "1970-01-01").stdout, told.replace("01:06:40", "23:59:59")
    revoked, nobody = key("C", "A").replace("pub:-", "pub:r"), key("D")
    with store_of(trust("A", "u") + trust("B", "u") + imported(key("A"), key("B"), revoked, nobody, key("E", "A", "B")) + f"disable {fingerprint('E')}\n") as at:
        yield "letters that hang on nobody", [line for name in "CDE" for line in at.run("wot-critical", f"{name} <").stdout.splitlines()], [
            f"[ revoked] C <c@example.org> {fingerprint('C')}", "  whoever is trusted",
            f"[ unknown] D <d@example.org> {fingerprint('D')}", "  no letter is further back",
            f"[  full  ] E <e@example.org> {fingerprint('E')} [disabled]", "  hangs on the ownertrust of nobody alone",
        ]


EDITS = [f"date {NOW}\n", trust("CC", "n"), f"disable {fingerprint('22')}\n", trust("CC", "m"), f"delete {fingerprint('11')}\n", "options classic 1 4 5 2\n", "options classic 1 4 5 3\n"]
SINCE_SIX = f"""\
from 1970-01-01 00:00:00 UTC, after 6 edits, to {wot.moment(int(NOW))}, after 13 of 13:
[  full  ] -> [  gone  ] Gus <gus@example.org> {fingerprint("11")}
[  full  ] -> [ unknown] Hana <hana@example.org> {fingerprint("22")}
[  full  ] -> [marginal] Finn <finn@example.org> {fingerprint("FF")}
3 letters changed
"""
ALL_OF_HANA = f"""\
[ unknown] Hana <hana@example.org> {fingerprint("22")}
  [  new   ] -> [  full  ] by edit 6 of 13, at 1970-01-01 00:00:00 UTC
    the key came: Gus <gus@example.org>, Hana <hana@example.org>, Ada <ada@example.org>, Ben <ben@example.org>, Cleo <cleo@example.org> and 3 more
    7 other letters changed with it
  [  full  ] -> [marginal] by edit 8 of 13, at {wot.moment(int(NOW))}
    the ownertrust went from marginal to never: Cleo <cleo@example.org>
    1 other letter changed with it
  [marginal] -> [  full  ] by edit 10 of 13, at {wot.moment(int(NOW))}
    the ownertrust went from never to marginal: Cleo <cleo@example.org>
    1 other letter changed with it
  [  full  ] -> [ unknown] by edit 12 of 13, at {wot.moment(int(NOW))}
    the options went from pgp 1 3 5 to classic 1 4 5, min-cert-level not shown
    1 other letter changed with it
"""


def before():
    """What changed since some edits, and by which; the store stays as it is, and a compaction forgets."""
    today = wot.day(int(NOW))
    with store_of(session("levels")) as at:
        run("".join(EDITS), where=at.here)
        files = [(at.here / name).read_bytes() for name in wot.FILES]
        yield "since a number", at.run("wot-history", "--since", "6").stdout, SINCE_SIX
        yield "since a day", [at.run("wot-history", "--since", "1970-01-01", *words).stdout for words in ((), ("--until", today))], [SINCE_SIX] * 2
        done = at.run("wot-history", "--since", "7", "--until", "9")
        yield "between two", done.stdout.splitlines()[1:], [f"[  full  ] -> [marginal] {name} {fingerprint(one)}" for name, one in (
            ("Hana <hana@example.org>", "22"), ("Finn <finn@example.org>", "FF"))] + ["2 letters changed"]
        yield "nothing", at.run("wot-history", "--since", "12", "--until", "12").stdout.splitlines()[1:], ["no letters changed"]
        yield "each edit", at.run("wot-history", "--all", "hana@example.org").stdout, ALL_OF_HANA
        found = at.run("wot-history", "hana@example.org").stdout.splitlines()
        yield "one that led to the letter of now", (found[0], found[1] in ALL_OF_HANA.splitlines(), "-> [ unknown]" in found[1]), (ALL_OF_HANA.splitlines()[0], True, True)
        yield "within some", at.run("wot-history", "--since", "8", "--until", "11", "hana@example.org").stdout.splitlines()[1:3], ALL_OF_HANA.splitlines()[7:9]
        yield "the same before", at.run("wot-history", "--since", "6", "--until", "11", "hana@example.org").stdout.splitlines()[1:], ["  the same after 6 edits and after 11; --all looks at those between"]
        yield "who is gone", at.run("wot-history", "--since", "6", "gus@example.org").stdout.splitlines(), [
            f"[  gone  ] Gus <gus@example.org> {fingerprint('11')}", f"  [  full  ] -> [  gone  ] by edit 11 of 13, at {wot.moment(int(NOW))}", "    the key went: Gus <gus@example.org>"]
        yield "a disabled key", at.run("wot-history", "--since", "8", "--until", "9").stdout.splitlines()[1:], ["no letters changed"]
        yield "what no listing shows", at.run("wot-history", "--since", "12", "--all", "hana@example.org").stdout.splitlines()[1:], ["  the same after each from 12 to 13 edits"]
        for words, said in (
            (("--since", "14"), "no state after 14 edits: there are 13 since the base"), (("--since", "9", "--until", "8"), "the state after 9 edits is later than that after 8"),
            (("--since", "20261130T101112"), "20261130T101112: neither a number of edits nor a day of the form 2026-12-31"),
        ):
            done = at.run("wot-history", *words)
            yield said, (done.returncode, done.stdout, done.stderr), (2, "", f"wot-history: {said}\n")
        yield "no usage", [at.status("wot-history", *words) for words in (("--all",), ("a", "b"))], [2, 2]
        page = at.run("wot-report", "--since", "6", "-").stdout
        yield "on the page", re.findall(r">([\w ]+)</span></td><td><span[^>]*>([\w ]+)</span></td><td>(\w+) ", page.partition("<h2>Letters")[0]), [
            ("full", "gone", "Gus"), ("full", "unknown", "Hana"), ("full", "marginal", "Finn")]
        yield "not on the page", (at.run("wot-report", "--since", "14", "-").stderr), "wot-report: no state after 14 edits: there are 13 since the base\n"
        yield "as it was", [(at.here / name).read_bytes() for name in wot.FILES], files
        yield from asked_before(at)
        run(f"compact\ndisable {fingerprint('AA')}\n", where=at.here)
        yield "a compaction forgets", at.run("wot-history", "hana@example.org").stdout.splitlines()[1:], ["  the same after no edits and after 1"]
        yield "a day before the base", at.run("wot-history", "--since", "1970-01-01").stderr, f"wot-history: 1970-01-01: the base is of a later day, {today}\n"


def asked_before(at):
    """The module's methods."""
    hana, gus = fingerprint("22"), fingerprint("11")
    with wot.Wot(at.here, PROGRAM) as store:
        yield "the module: how many", store.count(), 13
        yield "the module: all keys", [len(store.at(number).keyring().keys) for number in (0, 5, 6, 13)], [0, 0, 8, 7]
        yield "the module: one key", [store.at(number).keyring(hana).keys[0].letter for number in (6, 8, 10, 13)], list("fmf-")
        yield "the module: as it came", store.at(13).listing().raw, store.listing().raw
        yield "the module: why", (store.at(8).why(hana).letter, store.at(13).why(hana), sorted(store.at(6).why(gus).by)), ("m", store.why(hana), [key_id("BB")])
        calls = (lambda: store.at(14).listing(), lambda: store.at(2**64).listing(), lambda: store.at(3).listing(hana), lambda: store.at(6).why(hana, 2))
        yield "the module: refusals", [raised(call)[:2] for call in calls], [
            ("NoSuchTime", "no-such-time 13"), ("BadArgument", "bad-argument 1"), ("NoSuchKey", "no-such-key"), ("NoSuchUser", "no-such-user")]
        store.ask("trust " + hana + " f")
        yield "the module: one more", store.count(), 14
        store.ask("trust " + hana + " o")


def kept():
    """An answer by fingerprint is kept until the store is another, and no longer."""
    with store_of(session("levels")) as at:
        os.environ["XDG_CACHE_HOME"] = str(at.here / "cache")
        real, hana = wot.Wot, fingerprint("22")
        try:
            wot.look_up(at.here, hana, PROGRAM)
            yield "not of a store of this moment", os.path.exists(at.here / "cache"), False
            for name in wot.FILES:
                os.utime(at.here / name, (1, 1))
            first = [wot.look_up(at.here, one, PROGRAM) for one in (hana, fingerprint("EF"))]
            wot.Wot = None
            yield "kept", [wot.look_up(at.here, one, PROGRAM) for one in (hana, fingerprint("EF"))], first
            yield "what", ([one.letter for one in first[0].keys], first[1].keys, first[1].marginals), (["f"], [], 3)
            wot.Wot = real
            run(f"delete {fingerprint('FF')}\noptions pgp 1 4 5 2\n", where=at.here)
            yield "the store is another", [one.letter for one in wot.look_up(at.here, hana, PROGRAM).keys], ["m"]
        finally:
            wot.Wot = real
            del os.environ["XDG_CACHE_HOME"]


def unwritten():
    """What can't be written is told by the program's name and ends with 2, and so does a program whose standard output is closed; no traceback, and no status of Python's."""
    with store_of(session("levels")) as at:
        def called(redirection, *words, **names):
            done = at.run("sh", "-c", f'exec "$@" {redirection}', "sh", *words, **names)
            return done.returncode, done.stderr
        asks = [["wot-list"], ["wot-why", "hana@example.org"], ["wot-critical", "Hana"], ["wot-history", "Hana"], ["wot-suppose", "Hana", "full"], ["wot-report", "-"], ["wot.py", "hana@example.org"]]
        for redirection, told in (("> /dev/full", "No space left on device"), (">&-", "Bad file descriptor")):
            for name in PROGRAMS:
                # gpg too takes a closed standard output for one that leads nowhere
                if "gpg" in name and redirection == ">&-":
                    continue
                said = " can't be written" if name in ("deb", "wot-sync") else f": {told}"
                yield f"a help {redirection}: {name}", called(redirection, name, "--help"), (2, f"{name}: standard output{said}\n")
            for words in asks:
                for unbuffered in ("", "1"):
                    yield f"an answer {redirection}: {words} {unbuffered}", called(redirection, *words, PYTHONUNBUFFERED=unbuffered), (2, f"{words[0]}: standard output: {told}\n")
        for redirection in ("2>&-", "2> /dev/full"):
            yield f"no name {redirection}", (called(redirection, "wot-list", "nobody"), called(redirection, "wot-list", "--store", "none"), called(redirection, "wot-list", "--frob")), ((1, ""), (2, ""), (2, ""))
        run(imported(*(key(f"{number:02X}", text=f"{'x' * 3000} <a@example.org>") for number in range(0x30, 0x90))), where=at.here)
        for words in (["wot-list"], ["wot.py", "a@example.org"], ["wot-why", "a@example.org"], ["wot-report", "-"]):
            done = at.run("sh", "-c", '{ "$@"; echo "$?" >&2; } | head -n 1 > /dev/null', "sh", *words)
            yield f"nobody reads on: {words}", done.stderr in ("0\n", "2\n"), True
        yield "a long listing", done.stderr, "2\n"


class Told:
    """A store that tells one explanation."""

    def __init__(self, lines):
        self.lines = lines

    def why(self, *_):
        return wot.parsed_why(self.lines)


def later_forms():
    """Replies with a field more: by whose delegation an introducer introduces, and the fingerprint that a certification names."""
    ids = {name: key_id(name) for name in "ABCDE"}
    scopes = ["<[^>]+[@.]example\\x5c.org>$", "<[^>]+[@.]firm\\x5c.example>$"]
    full = "::" + fingerprint("C") + ":\n"
    lines = "tru::1:0:0:3:1:5\n" + key("A") + key("B", by("A", trusts="2 120", scope=scopes[0])) + key("C", by("B", trusts="1 120", scope=scopes[1])) + key(
        "D", by("C")[:-1] + full[1:], by("E")[:-1] + full[1:], text="D <d@firm.example>") + key("E", "A")
    people = wot_explain.People(wot.parsed_keyring(lines.replace("uid:-", "uid:q").splitlines()))
    certs = people.keyring.keys[3].users[0].certifications
    yield "a fingerprint", [cert.fingerprint for cert in certs], [fingerprint("C")] * 2
    yield "that another key has", [people.names_another(cert) for cert in certs], [False, True]
    told = [f"why:q:{ids['D']}:1:0:0:0:1:", f"row:{ids['A']}:0:u:0:::", f"row:{ids['B']}:1:f:1:{scopes[0]}:{ids['A']}:", f"row:{ids['C']}:2:n:0:{scopes[1]}:{ids['B']}:", f"by:{ids['C']}:n:"]
    yield "who delegated", [row.via for row in wot.parsed_why(told).rows.values()], ["", ids["A"], ids["B"]]
    told[1:3] = [told[1], f"row:{ids['B']}:1:f:1:{scopes[0]}:{ids['A']}:"]
    said = wot_explain.explanation(Told(told), people, people.keyring.keys[3], 1)
    yield "a certification that names another", said[-1].rpartition(": ")[2], f"it names another key, {fingerprint('C')}"
    told[0], told[3:] = told[0].replace("why:q", "why:f"), [line.replace(":n:", ":f:") for line in told[3:]]
    said = wot_explain.Explained(people, wot.parsed_why(told)).standing(ids["C"])
    yield "the chain of scopes", said.partition(", for ")[2], "firm.example alone, delegated by B <b@example.org>, who is trusted for example.org alone"


def interrupted():
    """Ctrl-C ends each program with 130, and no traceback."""
    with store_of(session("levels")) as at:
        (at.tools / "slow").write_text(f"#!/bin/sh\necho > {at.here}/began\nexec sleep 60\n", encoding="utf-8")
        (at.tools / "slow").chmod(0o755)
        for words in (("wot-list",), ("wot-why", "x"), ("wot-why-not", "x"), ("wot-critical", "x"), ("wot-history", "x"), ("wot-suppose", "x", "full"), ("wot-report", "page"), ("wot.py", "x@example.org")):
            environment = {**at.environment, "WOT": str(at.tools / "slow")}
            with subprocess.Popen(words, cwd=at.here, env=environment, stderr=subprocess.PIPE, start_new_session=True) as child:
                while not (at.here / "began").exists() and child.poll() is None:
                    time.sleep(0.02)
                os.killpg(child.pid, signal.SIGINT)
                yield words[0], (child.communicate(timeout=60)[1], child.returncode), (b"", 130)
            (at.here / "began").unlink()


MEASURE = """<iframe id="page" width="{wide}" height="900" src="page.html"></iframe><p id="told"></p><script>
onload = () => {{
  const page = document.getElementById("page").contentDocument, picture = page.querySelector(".picture"), drawn = page.querySelector("svg");
  const box = (element) => element.getBoundingClientRect();
  document.getElementById("told").textContent = [
    page.documentElement.scrollWidth <= {wide}, picture.scrollWidth > picture.clientWidth, Math.round(box(drawn).width) == drawn.getAttribute("width"),
    [...page.querySelectorAll("pre, table")].every((one) => one.scrollWidth <= {wide}),
  ].join(" ");
}};
</script>"""


def in_browser():
    """The page is as wide as its window, and the pictures that are wider scroll in boxes of their own."""
    names_of = [f"{number:02X}" for number in range(0x20, 0x25)]
    scope = "<[^>]+[@.]a-firm-with-a-long-name\\x5c.example\\x5c.org>$"
    keys = [key(name, by("A", trusts="1 120", scope=scope), text=f"Somebody with a long name {name} <somebody-{name}@a-long-address.example.org>") for name in names_of]
    given = trust("A", "u") + imported(key("A"), *keys, key("C", *names_of, text="Carla <carla@a-firm-with-a-long-name.example.org>"))
    with store_of(given) as at:
        at.run("wot-report", "--why", "Carla", "page.html")
        for wide in (1200, 420):
            (at.here / "measure.html").write_text(MEASURE.format(wide=wide), encoding="utf-8")
            done = at.run(
                CHROMIUM, "--headless", "--no-sandbox", "--disable-gpu", "--allow-file-access-from-files", f"--user-data-dir={at.here}/profile",
                "--virtual-time-budget=5000", "--dump-dom", f"file://{at.here}/measure.html")
            yield f"at {wide}", re.findall('<p id="told">(.*?)</p>', html.unescape(done.stdout)), ["true true true true"]


def verdicts():
    """The verdict on a file has a reason; both orders of the files, and a fingerprint, are understood."""
    _, alice, bob, carol = primaries()
    with synced() as at:
        (at.here / "file").write_bytes(b"content\n")

        def signed(signer, name="sig", *words):
            gpg("-u", signer, "--output", str(at.here / name), *(words or ("--detach-sign",)), str(at.here / "file"))

        def said(*words):
            done = at.run("wot-verify", *words)
            return done.returncode, re.sub("^.* whose letter is at least .: ", "", done.stdout.splitlines()[-1]) if done.returncode == 1 else ""
        signed(alice)
        (at.here / "other").write_bytes(b"other\n")
        signed(alice, "armoured", "--armor", "--detach-sign")
        yield "both orders", [said(*words) for words in (("file", "sig"), ("sig", "file"), ("armoured", "file"), ("file", "armoured"))], [(0, "")] * 4
        signed(alice, "file.sig")
        yield "a signature alone", (said("file.sig")[0], at.run("wot-verify", "sig").stderr), (0, "wot-verify: sig is a signature alone: name the file too\n")
        (at.here / "file.sig").unlink()
        yield "bad", said("other", "sig"), (1, "the signature is bad: the file is not what was signed")
        yield "none", said("file"), (1, "there is no signature")
        yield "a fingerprint", [said("--by", who, "file", "sig") for who in (alice, "0x" + alice.lower(), bob)], [(0, ""), (0, ""), (1, f"the signer is {alice}")]
        yield "neither", [said("--by", who, "file", "sig") for who in ("Bob", alice[-16:], "", "a@b <c")], [(2, "")] * 4
        yield "another name", said("--by", "bob@example.org", "file", "sig"), (1, "the signer's key has no user ID of bob@example.org: it is full")
        yield "no such file", at.run("wot-verify", "nofile").stderr, "wot-verify: nofile: No such file or directory\n"
        yield "no such keyring", (at.status("wot-verify", "--keyring", "ring", "file", "sig"), (at.here / "ring").exists()), (2, False)
        for words in (("file", "sig"), ("sig", "file")):
            done = at.run("wot-verify", "--output", "out", *words)
            told = "wot-verify: error: --output is of a file that holds its signature itself, and of no SIGNATURE beside it"
            yield f"an output of {words}", (done.returncode, done.stdout, done.stderr.splitlines()[-1]), (2, "", told)
        signed(alice, "file.sig")
        done = at.run("wot-verify", "--output", "out", "file.sig")
        yield "an output of a signature alone", (done.returncode, done.stdout, done.stderr), (2, "", "wot-verify: file.sig is a signature alone, and holds nothing for --output\n")
        (at.here / "hidden.sig").write_bytes(b"\xca\x03PGP" + (at.here / "file.sig").read_bytes())
        (at.here / "hidden").write_bytes(b"content\n")
        yield "of one behind a marker", said("--output", "out", "hidden.sig"), (1, "the file doesn't hold what was signed")
        yield "none is made", (at.here / "out").exists(), False
        for name in ("file.sig", "hidden.sig", "hidden"):
            (at.here / name).unlink()
        yield from unread_keyrings(at)
        with at.failing_gpg("--verify", 'case "$*" in *--no-auto-check-trustdb*) exec REAL "$@" ;; esac; exit 9'):
            yield "gpg's trust database is left alone", said("file", "sig"), (0, "")
        signed(carol, "carols")
        yield "not valid", [said(*words, "file", "carols") for words in ((), ("--by", "carol@example.org"))], [(1, "the signer's key is unknown"), (1, "the signer's user ID is unknown")]
        (at.here / "ring").write_bytes(subprocess.run(["gpg", "--export", alice], capture_output=True, check=True).stdout)
        yield "not on the keyring", said("--keyring", "ring", "file", "carols"), (1, f"gpg has no key {carol}")
        signed(alice, "whole", "--sign")
        yield "the verdict alone", said("whole"), (0, "")
        yield from into(at, lambda name: at.status("wot-verify", "--output", name, "whole"))
        run(f"disable {alice}\n", where=at.here / "store")
        yield "disabled", said("file", "sig"), (1, "the signer's key is disabled")
        run(f"delete {alice}\n", where=at.here / "store")
        yield "not in the store", said("file", "sig"), (1, "the signer's key is not in the store")
        yield from ended_keys(at, signed, said)


# what gpg does, and then a status line where it is to be told them
THEN_TOLD = 'REAL "$@"; code=$?; for word; do [ "$before" != --status-fd ] || to=$word; before=$word; done; echo "[GNUPG:] {} 33554445" >> /proc/self/fd/$to; exit $code'


def unread_keyrings(at):
    """Where gpg can't read a keyring, whether a signature is good can't be said."""
    home = pathlib.Path(os.environ["GNUPGHOME"])
    whole = (home / "pubring.kbx").read_bytes()
    keys = subprocess.run(["gpg", "--export"], capture_output=True, check=True).stdout

    def said(*words):
        done = at.run("wot-verify", *words, "file", "sig")
        return done.returncode, done.stdout, done.stderr.startswith("wot-verify: the keyring can't be read\n")
    for name, content in (
        ("cut", whole[:500]), ("of another kind", b"x" * 100), ("damaged at its begin", b"\0" + keys[1:]), ("damaged within", keys[:300] + b"\xff" * 40 + keys[340:]),
    ):
        (at.here / "damaged").write_bytes(content)
        yield f"a keyring that is {name}", said("--keyring", "damaged"), (2, "", True)
    (home / "gpg.conf").write_text("no-keyring\n", encoding="utf-8")
    yield "no keyring", said(), (2, "", True)
    (home / "gpg.conf").unlink()
    for line in ("FAILURE keydb_search", "ERROR keydb_search", "ERROR add_keyblock_resource"):
        with at.failing_gpg("--verify", THEN_TOLD.format(line)):
            yield line, said(), (2, "", True)
    with at.failing_gpg("--verify", THEN_TOLD.format("FAILURE gpg-exit")):
        yield "another failure", said()[0], 0


def ended_keys(at, signed, said):
    """A key that was revoked, and one that expired, since they signed: the store's names are shown all the same."""
    made = {}
    for name in ("Rita", "Ed"):
        gpg("--quick-generate-key", f"{name} <{name.lower()}@example.org>", "ed25519", "default", "never")
        made[name] = primaries()[-1]
        signed(made[name], name)
    text = (pathlib.Path(os.environ["GNUPGHOME"]) / "openpgp-revocs.d" / f"{made['Rita']}.rev").read_text(encoding="utf-8")
    gpg("--import", given=text.replace(":-----BEGIN", "-----BEGIN"))
    gpg("--quick-set-expire", made["Ed"], "seconds=1")
    time.sleep(2)
    yield "synced anew", at.status("wot-sync"), 0
    for name, wanted in (("Rita", "revoked"), ("Ed", "expired")):
        yield wanted, (said("file", name), f"[ {wanted}] {name} <" in at.run("wot-verify", "file", name).stdout), ((1, f"the signer's key is {wanted}"), True)


def alone():
    checks, left = [outputs, stale, signers, held, names, supposing, before, kept, unwritten, later_forms, interrupted], []
    if not WITHOUT_RIGHTS or shutil.which("setpriv"):
        checks.append(denied)
    else:
        left.append("denied: no setpriv")
    if CHROMIUM:
        checks.append(in_browser)
    else:
        left.append("in_browser: no chromium")
    if not can_make_nodes():
        left.append("devices: no node can be made")
    return *checked(*checks), left


def over_gpg():
    with folder() as home:
        os.environ["GNUPGHOME"] = home
        try:
            make_keyring()
            return *checked(verdicts), []
        except NoGnuPG as fault:
            return 0, [], [f"what needs a gpg keyring: {fault}"]
        finally:
            if shutil.which("gpgconf"):
                subprocess.run(["gpgconf", "--kill", "all"], capture_output=True, check=False)


if __name__ == "__main__":
    parts = alone(), over_gpg()
    wrong = [fault for _, faults, _ in parts for fault in faults]
    if wrong:
        sys.exit("\n".join(wrong))
    skipped = [f"skipped: {part}" for _, _, left_out in parts for part in left_out]
    print("; ".join([f"contrib_programs: {sum(done for done, _, _ in parts)} ok", *skipped]))
