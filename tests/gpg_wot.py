#!/usr/bin/env python3
"""Asks through `gpg-wot` what clients ask of gpg, over a keyring where gpg and the store disagree, and runs the clients themselves.

gpg calls Alice's key full and the store doesn't; of Carol's it is the other way round. `gpg-wot` is asked of that store, of none, of one past
its next check, and of one that a session holds, a client of the first two. A client that isn't there is skipped, and it is said which: GPGME and
python-gnupg by the Python that has their modules, git, mutt, neomutt, Emacs and dscverify. apt isn't asked: it has a keyring of its own, and no trust.
"""
import contextlib
import hashlib
import json
import os
import pathlib
import pty
import re
import resource
import select
import shutil
import signal
import struct
import subprocess
import sys
import time

from contrib import CONTRIB, FULL, ULTIMATE, UNDEFINED, NoGnuPG, gpg, own, place, primaries
from reference.program import PROGRAM, folder, run

REAL = shutil.which("gpg")
TRUST = {"u": "TRUST_ULTIMATE", "f": "TRUST_FULLY", "m": "TRUST_MARGINAL", "-": "TRUST_UNDEFINED"}
STORES = ("store", "none", "stale", "held")
# what a client is asked with: each of these, and a gpg that is killed when it has said that a signature is good
ASKED = (*STORES, "killed")
# of a listing of so many keys the store's letters may take half a second more
MANY, ALLOWED = 1178, 0.5


def make_keyring():
    """Mine certifies Alice's and Bob's; Carol's nobody. Bob's is disabled later, and Rita's revoked."""
    for name in ("me", "alice", "bob", "carol", "rita"):
        gpg("--quick-generate-key", f"{name} <{name}@example.org>", "ed25519", "default", "never")
    me, alice, bob, carol, rita = primaries()
    gpg("--quick-add-uid", alice, "alias <alias@example.org>")
    for key in (alice, bob, carol):
        gpg("--quick-add-key", key, "cv25519", "encr", "never")
    for key in (alice, bob, rita):
        gpg("--default-key", me, "--quick-sign-key", key, *(["alice <alice@example.org>"] if key == alice else []))
    own(ULTIMATE, FULL, FULL, UNDEFINED, UNDEFINED)


def blocks(listing):
    """The keys of a listing, each with its lines."""
    return re.findall(r"^pub:.*\n(?:(?!pub:).*\n)*", listing, re.M)


def swapped(listing):
    """The listing where my certification stands on Carol's user ID in place of Alice's."""
    me, alice, _, carol, _ = primaries()
    mine = re.compile(rf"^sig:!::\d+:{me[-16:]}:.*\n", re.M)
    told = []
    for block in blocks(listing):
        key = block.split(":")[4]
        if key == alice[-16:]:
            certification = mine.search(block)[0]
            block = mine.sub("", block)
        told.append((key, block))
    return "".join(re.sub(r"^(uid:.*\n)", lambda uid: uid[0] + certification, block, count=1, flags=re.M) if key == carol[-16:] else block for key, block in told)


def make_store(path, date, more=""):
    path.mkdir()
    listing = subprocess.run([REAL, "--batch", "--with-colons", "--fixed-list-mode", "--check-sigs"], capture_output=True, text=True, check=True).stdout
    run("ownertrust\n" + gpg("--export-ownertrust") + f".\ndate {date}\nimport\n{swapped(listing)}.\n{more}", where=path)


class Client:
    """gpg-wot in a place, with gpg's own answer beside it."""

    def __init__(self, at):
        self.at = at
        self.environment = {**at.environment, "GPG_WOT_GPG": REAL, "PYTHONPYCACHEPREFIX": os.path.join(os.environ["GNUPGHOME"], "compiled")}
        del self.environment["PYTHONDONTWRITEBYTECODE"]
        self.environment["TMPDIR"] = str(at.here / "temporary")
        (at.here / "temporary").mkdir()
        # which is found faster than by a shim
        (at.tools / "python3").symlink_to(sys.executable)

    def run(self, *words, given=b"", program="gpg-wot", **names):
        path = str(CONTRIB / program) if program.endswith("gpg-wot") else program
        done = subprocess.run([path, *words], input=given, capture_output=True, cwd=self.at.here, env={**self.environment, **names}, timeout=60, check=False)
        return done

    def said(self, *words, **names):
        """The three: output, messages, status."""
        done = self.run(*words, **names)
        return done.stdout.decode(), done.stderr.decode(), done.returncode

    @contextlib.contextmanager
    def asking(self, store):
        """With the store of this kind."""
        self.environment["WOT_STORE"] = str(self.at.here / ("store" if store in ("held", "killed") else store))
        if store == "killed":
            act(self, KILLED)
        holder = None
        if store == "held":
            holder = subprocess.Popen([PROGRAM], stdin=subprocess.PIPE, stdout=subprocess.PIPE, cwd=self.at.here / "store")
            holder.stdin.write(b"export\n")
            holder.stdin.flush()
            while not holder.stdout.readline().startswith(b"ok"):
                pass
        try:
            yield
        finally:
            self.environment.update(WOT_STORE=str(self.at.here / "store"), GPG_WOT_GPG=REAL)
            if holder:
                holder.communicate()


@contextlib.contextmanager
def client():
    with place() as at:
        now = int(time.time())
        make_store(at.here / "store", now)
        make_store(at.here / "stale", now - 1000, re.sub("@", str(now - 500), EXPIRED))
        yield Client(at)


EXPIRED = """\
import
pub:-:255:22:00000000000000EE:1000:@::-:::scSC:
fpr:::::::::00000000000000000000000000000000000000EE:
uid:-::::1000::::E <e@example.org>:
.
"""


def statuses(text):
    return [line for line in text.splitlines() if line.startswith("[GNUPG:] ")]


def trust_of(text):
    return [line.split(" ")[1] for line in statuses(text) if line.startswith("[GNUPG:] TRUST_")]


def without_trust(text):
    return [line for line in statuses(text) if not line.startswith("[GNUPG:] TRUST_")]


def sign(at, name, *words):
    gpg("-u", name, "--output", str(at.here / f"{name}.sig"), *(words or ("--detach-sign",)), str(at.here / "file"))


def letter(store, of_store):
    """What is answered of a key that has this letter in the store."""
    return of_store if store in ("store", "killed") else "-"


def status(ask):
    """The status lines of a signature: gpg's, but for the trust."""
    me, alice, _, carol, _ = primaries()
    (ask.at.here / "file").write_bytes(b"content\n")
    for key in (alice, carol):
        sign(ask.at, key)
        verify = "--status-fd", "1", "--verify", f"{key}.sig", "file"
        of_gpg = ask.said(*verify, program=REAL)
        yield "gpg's own", trust_of(of_gpg[0]), [TRUST["f" if key == alice else "-"]]
        for store in STORES:
            with ask.asking(store):
                out, told, code = ask.said(*verify)
            wanted = [TRUST[letter(store, "-" if key == alice else "f")]]
            yield f"{store}: {told}", (trust_of(out), without_trust(out), code), (wanted, without_trust(of_gpg[0]), 0)
            yield f"{store}: a line: {told}", re.search("^wot: " + SAID[store], told, re.M) is not None, True
            yield f"{store}: no letter of gpg: {told}", re.findall(r"^gpg: .*\[\w+\]", told, re.M), []
    verify = "--verify", f"{carol}.sig", "file"
    yield "the sender", trust_of(ask.said("--sender", "carol@example.org", "--status-fd=1", *verify)[0]), ["TRUST_FULLY"]
    yield "another sender", trust_of(ask.said("--sender", "Alice <alice@example.org>", "--status-fd=1", *verify)[0]), ["TRUST_UNDEFINED"]
    for model in ("--trust-model=always", "--trust-model=direct", "--no-auto-check-trustdb"):
        yield model, trust_of(ask.said(model, "--status-fd", "1", *verify)[0]), ["TRUST_FULLY"]
    yield "an option that asks for gpg's letters", "[" in ask.said("--verify-options", "show-uid-validity", *verify)[1].replace("wot: [", ""), False
    both = ask.said("--status-fd", "2", *verify)
    yield "among the messages", (both[0], trust_of(both[1]), "wot: [  full  ] carol" in both[1]), ("", ["TRUST_FULLY"], True)
    yield "to a file", (ask.said("--batch", "--status-file", "status", "--logger-file", "log", *verify), trust_of((ask.at.here / "status").read_text())), (("", "", 0), ["TRUST_FULLY"])
    yield "messages to a file", "wot: [  full  ] carol" in (ask.at.here / "log").read_text(), True
    yield "no status lines", (ask.said(*verify)[0], "wot: [  full  ] carol" in ask.said(*verify)[1]), ("", True)
    run(f"trust {me} u\ndelete {carol}\n", where=ask.at.here / "store")
    out, told, _ = ask.said("--status-fd", "1", *verify)
    yield "a key that isn't in the store", (trust_of(out), f"wot: {carol} is not in the store\n" in told), (["TRUST_UNDEFINED"], True)
    yield "a signature that is bad", ask.said("--verify", f"{alice}.sig", f"{alice}.sig")[2], 1


SAID = {"store": r"\[", "none": ".*: no store there", "stale": "the store tells of .*: run wot-sync", "held": "another run of wot holds the store"}


def worse_of_both(ask):
    """What gpg or the store says of a key itself stands, whichever is worse."""
    _, alice, bob, carol, rita = primaries()
    (ask.at.here / "file").write_bytes(b"content\n")
    for key in (alice, carol, rita):
        sign(ask.at, key)
    revocation = pathlib.Path(os.environ["GNUPGHOME"], "openpgp-revocs.d", f"{rita}.rev").read_text(encoding="utf-8")
    gpg("--import", given=revocation.replace(":-----", "-----"))
    listing = run("sigs\n", where=ask.at.here / "store").stdout.decode()
    for key, sign_of, expires in ((alice, "e", "1500"), (carol, "r", "")):
        (block,) = [one for one in blocks(listing) if key in one]
        fields = block.split("\n")[0].split(":")
        fields[1], fields[6] = sign_of, expires
        run("import\n" + ":".join(fields) + "\n" + block.partition("\n")[2].replace("ok\n", "") + ".\n", where=ask.at.here / "store")

    def outcome(key):
        out = ask.said("--status-fd", "1", "--verify", f"{key}.sig", "file")[0]
        return [line.split(" ")[1] for line in statuses(out) if re.search(r" (\w*SIG \w+ |KEYREVOKED|TRUST_)", line + " ") and " SIG_ID" not in line]
    yield "expired in the store", outcome(alice), ["NEWSIG", "EXPKEYSIG", "VALIDSIG"][1:]
    yield "revoked in the store", outcome(carol), ["REVKEYSIG", "VALIDSIG", "KEYREVOKED", "TRUST_UNDEFINED"]
    yield "revoked in gpg", outcome(rita), ["REVKEYSIG", "VALIDSIG", "KEYREVOKED", "TRUST_UNDEFINED"]
    listed = ask.said("--with-colons", "--list-keys")[0]
    yield "in a listing", [re.search(f"^pub:(.):.*\nfpr:*{key}:", listed, re.M)[1] for key in (alice, carol, rita)], ["e", "r", "r"]
    signed = ask.said("--batch", "--with-colons", "--pinentry-mode", "loopback", "--passphrase", "", "--quick-lsign-key", carol)[0]
    yield "while a key is signed", {one for _, one, _ in lettered(signed)}, {"r"}
    run(f"disable {bob}\n", where=ask.at.here / "store")
    yield "disabled in the store", re.search(f"^pub:.:.*:([a-zA-Z]*):.*\nfpr:*{bob}:", ask.said("--with-colons", "--list-keys", bob)[0], re.M) is not None, True
    yield "disabled, in field 12", "D" in [line.split(":")[11] for line in ask.said("--with-colons", "--list-keys", bob)[0].splitlines() if line.startswith("pub")][0], True


def lettered(listing):
    """The letters of a listing by colons, with the name behind that of a user ID."""
    return [(fields[0], fields[1], fields[9].split(" ")[0]) for fields in (line.split(":") for line in listing.splitlines()) if fields[0] in ("pub", "sec", "uid", "sub", "ssb")]


def bare(listing):
    """A listing without what is replaced."""
    return [re.sub(r"^((?:pub|sec|uid|uat|sub|ssb):)[^:]*", r"\1", line) for line in listing.splitlines() if not line.startswith("tru:")]


def listings(ask):
    """Listings by colons and for people have the store's letters, and are gpg's else."""
    me, alice, bob, carol, _ = primaries()
    wanted = {me: "u", alice: "-", bob: "f", carol: "f"}
    for words in (("--list-keys",), ("--list-secret-keys",), ("--list-sigs",), ("--fingerprint", "--with-subkey-fingerprint"), ("--locate-keys",)):
        words = ["--with-colons", *words, *([] if words[0] != "--locate-keys" else [me, alice, bob, carol])]
        of_gpg = ask.said(*words, program=REAL)
        for store in STORES if words[1] == "--list-keys" else STORES[:1]:
            with ask.asking(store):
                out, told, code = ask.said(*words)
            yield f"{store}: {words}: else gpg's", (bare(out), code), (bare(of_gpg[0]), of_gpg[2])
            found = {re.search(r"^fpr:*(\w+)", block, re.M)[1]: block for block in re.findall(r"^(?:pub|sec):.*\n(?:(?!pub:|sec:).*\n)*", out, re.M)}
            letters = {key: {one for _, one, _ in lettered(found[key])} for key in wanted}
            yield f"{store}: {words}: {told}", letters, {key: {letter(store, one)} for key, one in wanted.items()}
            yield f"{store}: {words}: a line", store == "store" or bool(re.search("^wot: " + SAID[store], told, re.M)), True
            first = [line for line in out.splitlines() if line.startswith("tru:")]
            yield f"{store}: {words}: the first line", [line.split(":")[1] for line in first], ["" if store == "store" else "o"] * len(first)
    theirs = run("list\n", where=ask.at.here / "store").stdout.decode().splitlines()[0]
    yield "the first line", ask.said("--with-colons", "--list-keys", alice)[0].splitlines()[0], theirs
    yield "of nobody", ask.said("--with-colons", "--list-keys", "nobody@example.org")[::2], (theirs + "\n", 2)
    # two user IDs that were made in one second come in either order
    yield "by user ID", {one for one in lettered(ask.said("--with-colons", "-k", "alice")[0]) if one[0] == "uid"}, {("uid", "-", "alias"), ("uid", "-", "alice")}
    for words in (("-k",), ("-K",), ("--list-sigs", "--keyid-format", "long"), ("--fingerprint", "--keyid-format=0xshort", "--with-keygrip")):
        of_gpg, out = ask.said(*words, program=REAL)[0], ask.said(*words)[0]
        yield f"for people: {words}: else gpg's", re.sub(r"\[.{8}\]", "", out), re.sub(r"\[.{8}\]", "", of_gpg)
        yield f"for people: {words}", set(re.findall(r"^uid +(\[.{8}\]) (\w+)", out, re.M)[:5]), {
            ("[ultimate]", "me"), ("[ unknown]", "alias"), ("[ unknown]", "alice"), ("[  full  ]", "bob"), ("[  full  ]", "carol")}
    with ask.asking("none"):
        yield "for people, without a store", set(re.findall(r"^uid +(\[.{8}\])", ask.said("-k")[0], re.M)), {"[ unknown]"}
    edited = ask.said("--no-tty", "--with-colons", "--command-fd", "0", "--status-fd", "1", "--edit-key", carol, given=b"list\nquit\n")[0]
    yield "while a key is edited", ({one for _, one, _ in lettered(edited)}, "GET_LINE" in edited), ({"f"}, True)
    gpg("--export", "--output", str(ask.at.here / "keys"), carol)
    yield "of a file", {one for _, one, _ in lettered(ask.said("--with-colons", "--show-keys", "keys")[0])}, {"f"}
    yield "of a file, without a command", "pub:-:" in ask.said("--with-colons", "keys")[0], True
    fast = ask.said("--with-colons", "--fast-list-mode", "-k", carol)
    yield "fast: what gpg leaves out", lettered(fast[0])[0], ("pub", "", "")
    run(f"delete {carol}\n", where=ask.at.here / "store")
    yield "a key that isn't in the store", ask.said("--with-colons", "-k", carol)[1], f"wot: {carol} is not in the store\n"


def recipients(ask):
    """Who is encrypted to without being asked about, and who is refused as gpg refuses in batch."""
    _, alice, bob, carol, _ = primaries()

    def encrypted(*words, **names):
        done = ask.run("--status-fd", "2", "--encrypt", *words, given=b"text", **names)
        found = re.findall(r"^\[GNUPG:\] INV_RECP (\d+ .*)", done.stderr.decode(), re.M)
        return done.returncode, found, re.search(rb"^-----BEGIN|\A[\x84\x85]", done.stdout) is not None
    refused = ask.run("--batch", "--status-fd", "2", "--encrypt", "-r", carol, given=b"text", program=REAL)
    for store in STORES:
        with ask.asking(store):
            for name in (carol, "<Carol@EXAMPLE.org>", carol[-16:], "=carol <carol@example.org>", "carol")[:None if store == "store" else 2]:
                yield f"{store}: {name}", encrypted("-r", name), (0, [], True) if store == "store" else (2, [f"10 {name}"], False)
            done = ask.run("--encrypt", "-r", "carol@example.org", "-r", bob, given=b"text")
            yield f"{store}: it is told once", len(re.findall(b"^wot: " + SAID[store].encode(), done.stderr, re.M)), 0 if store == "store" else 1
    yield "valid in gpg alone", encrypted("-r", alice), (2, [f"10 {alice}"], False)
    done = ask.run("--batch", "--status-fd", "2", "--encrypt", "-r", alice, given=b"text")
    lines = [re.sub(r" \w{40}\b", "", line) for line in statuses(done.stderr.decode())]
    yield "as gpg does", (lines, done.returncode), ([re.sub(r" \w{40}\b", "", line) for line in statuses(refused.stderr.decode())], refused.returncode)
    yield "always", [encrypted(*words, "-r", alice) for words in (("--trust-model", "always"), ("--always-trust",), ("--trust-mod=always",))], [(0, [], True)] * 3
    yield "another model", encrypted("--always-trust", "--trust-model", "pgp", "-r", alice), (2, [f"10 {alice}"], False)
    yield "hidden", [encrypted("-aR", name)[0] for name in (carol, alice)], [0, 2]
    yield "two", [encrypted("-r", bob, "-r", carol), encrypted("-r", carol, "-r", alice), encrypted("-r", alice, "-r", carol)], [(0, [], True)] + [(2, [f"10 {alice}"], False)] * 2
    yield "a group", [encrypted("--group", f"people = {members}", "-r", "PEOPLE") for members in (f"{bob} {carol}", f"{bob} {alice}")], [(0, [], True), (2, [f"10 {alice}"], False)]
    yield "signed too", encrypted("-s", "-u", bob, "--pinentry-mode", "loopback", "--passphrase", "", "-r", carol), (0, [], True)
    yield "nobody", encrypted("--disable-dirmngr", "-r", "nobody")[::2], (2, False)
    yield "a key from a file, which gpg takes", encrypted("--recipient-file", str(ask.at.here / "key")) if exported(ask.at.here / "key", alice) else None, (0, [], True)
    yield "nobody at all", encrypted("--batch")[::2], (2, False)
    subkey = gpg("--with-colons", "--list-keys", carol).split("fpr:::::::::")[-1].split(":")[0]
    yield "a subkey", [encrypted("-r", subkey + end) for end in ("!", "")], [(0, [], True)] * 2
    run(f"disable {bob}\n", where=ask.at.here / "store")
    yield "disabled in the store", encrypted("-r", "bob@example.org"), (2, ["10 bob@example.org"], False)
    gpg("--import-ownertrust", given=f"{carol}:{UNDEFINED + 128}:\n")
    yield "disabled in gpg", encrypted("-r", carol), (2, [f"13 {carol}"], False)
    gpg("--import-ownertrust", given=f"{carol}:{UNDEFINED}:\n")
    yield "nothing is left", list((ask.at.here / "temporary").iterdir()), []


def exported(path, key):
    gpg("--output", str(path), "--export", key)
    return True


def streams(ask):
    """Bytes go through as they are, descriptors too."""
    _, alice, _, _, _ = primaries()
    data = b"[GNUPG:] TRUST_FULLY 0 pgp\npub:f:\n" + os.urandom(10_000_000)
    reader, writer = os.pipe()
    os.write(writer, b"secret\n")
    loopback = ["--batch", "--pinentry-mode", "loopback", "--compress-algo", "none"]
    sealed = run_with(ask, [*loopback, "--passphrase-fd", str(reader), "-c"], data, reader)
    os.write(writer, b"secret\n")
    os.close(writer)
    opened = run_with(ask, [*loopback, "--passphrase-fd", str(reader), "-d"], sealed.stdout, reader)
    os.close(reader)
    yield "10 MB, encrypted and back", (sealed.returncode, opened.returncode, opened.stdout == data), (0, 0, True)
    signed = ask.run(*loopback, "--passphrase", "", "-u", alice, "--sign", given=data)
    opened = ask.run("--batch", "--status-fd", "2", "--decrypt", given=signed.stdout)
    yield "10 MB, signed and verified", (opened.stdout == data, trust_of(opened.stderr.decode())), (True, ["TRUST_UNDEFINED"])
    opened = ask.run("--batch", "--status-fd", "1", "--decrypt", given=signed.stdout)
    yield "10 MB among status lines", data[100:-100] in opened.stdout, True
    yield "status", [ask.run(*words).returncode for words in (("--version",), ("--frob",), ("--verify", "none"), ("--status-fd", "99", "--verify", "none"))], [0, 2, 2, 2]
    yield "its version", ask.said("--version"), ask.said("--version", program=REAL)
    for name, first in (("gpg-wot", "Stands for gpg wherever"), ("git-gpg-wot", "gpg-wot, under the name that git is told")):
        out, told, code = ask.said("--help", program=name)
        yield f"the help of {name}", (out.startswith(f"usage: {name} [WORD OF gpg]...\n\n{first}"), told, code), (True, "", 0)
    yield "and a help among other words, which is gpg's", ask.said("--help", "--batch"), ask.said("--help", "--batch", program=REAL)
    variables = set(re.findall("^  ([A-Z_]+) ", ask.said("--help")[0], re.M))
    page = (CONTRIB.parent / "docs" / "gpg-wot.1").read_text(encoding="utf-8")
    yield "the variables of its page", variables, set(re.findall(r"^\.B ([A-Z_]+)$", page.partition(".SH ENVIRONMENT")[2], re.M))
    yield "no gpg", [ask.said("--version", GPG_WOT_GPG=path)[2] for path in ("/nowhere", "/bin/true")], [2, 2]
    yield "a descriptor that gpg would read otherwise", ask.said("--status-fd=+2", "--verify", "none")[::2], ("", 2)
    (ask.at.tools / "gpg").symlink_to(CONTRIB / "gpg-wot")
    yield "under gpg's name", ask.said("--version", program=str(ask.at.tools / "gpg"), GPG_WOT_GPG=""), ask.said("--version", program=REAL)
    (ask.at.tools / "gpg").unlink()


def run_with(ask, words, data, descriptor):
    return subprocess.run([CONTRIB / "gpg-wot", *words], input=data, capture_output=True, pass_fds=[descriptor], env=ask.environment, cwd=ask.at.here, timeout=60, check=False)


VALID = "[GNUPG:] NEWSIG\\n[GNUPG:] GOODSIG 0000000000000000 A\\n"
KILLED = f"""case " $* " in
*" --verify "*)
  for word; do
    case $word in --status-fd=*) to=${{word#*=}} ;; esac
    [ "$before" != --status-fd ] || to=$word
    before=$word
  done
  printf '{VALID}' > /proc/self/fd/"$to"
  kill -KILL $$ ;;
*) exec {REAL} "$@" ;;
esac"""


def act(ask, text):
    """Lets a gpg be run that does this, whatever it is asked but its options."""
    path = ask.at.here / "acting"
    path.write_text(f'#!/bin/sh\ncase " $* " in\n*dump-option-table*) exec {REAL} "$@" ;;\nesac\n{text}\n', encoding="utf-8")
    path.chmod(0o755)
    ask.environment["GPG_WOT_GPG"] = str(path)


@contextlib.contextmanager
def acting(ask, text):
    act(ask, text)
    yield
    ask.environment["GPG_WOT_GPG"] = REAL


def signals(ask):
    """gpg's end is the end: by a signal, handed on or its own; and nothing waits that wouldn't wait in gpg."""
    verify = [CONTRIB / "gpg-wot", "--status-fd", "1", "--verify", "a", "b"]
    pipes = {"stdin": subprocess.PIPE, "stdout": subprocess.PIPE, "stderr": subprocess.PIPE, "cwd": ask.at.here, "env": ask.environment}
    for number in (signal.SIGKILL, signal.SIGTERM, signal.SIGSEGV):
        with acting(ask, f"printf '{VALID}'; kill -{int(number)} $$"):
            out, _, code = ask.said("--status-fd", "1", "--verify", "a", "b")
        yield f"gpg ends by {number}", (out, code), ("[GNUPG:] NEWSIG\n", -number)
    with acting(ask, "exit 77"):
        yield "gpg's own status", ask.said("--verify", "a", "b")[2], 77
    for number in (signal.SIGTERM, signal.SIGINT, signal.SIGHUP):
        with acting(ask, "echo $$; exec sleep 30"), subprocess.Popen(verify, **pipes) as child:
            one = int(child.stdout.readline())
            child.send_signal(number)
            yield f"{number} is handed on", (child.wait(timeout=20), is_there(one)), (-number, False)
    with acting(ask, "echo $$; exec sleep 30"), subprocess.Popen(verify, **pipes) as child:
        one = int(child.stdout.readline())
        child.kill()
        child.wait(timeout=20)
        yield "killed itself", gone(one), True
    with acting(ask, "printf 'gpg: a question? '; read answer; echo \"$answer\""), subprocess.Popen(verify, **pipes) as child:
        asked = os.read(child.stdout.fileno(), 100)
        yield "a question is seen before it is answered", (asked, child.communicate(b"yes\n", timeout=20)[0]), (b"gpg: a question? ", b"yes\n")
    listing = [CONTRIB / "gpg-wot", "--with-colons", "--list-keys"]
    fpr = primaries()[3]
    with acting(ask, f"printf 'pub:f:1:1:1:1:::-:::sc:\\nfpr:::::::::{fpr}:\\nuid:'; read answer; echo '-:'"), subprocess.Popen(listing, **pipes) as child:
        asked = child.stdout.readline() + child.stdout.readline()
        yield "a listing comes as it is made", (asked.decode(), child.communicate(b"\n", timeout=20)[0][:5]), (f"pub:f:1:1:1:1:::-:::sc:\nfpr:::::::::{fpr}:\n", b"uid:-")
    with acting(ask, "sleep 8 & echo '[GNUPG:] NEWSIG'"), subprocess.Popen(verify, **pipes) as child:
        before = time.monotonic()
        yield "a child of gpg isn't waited for", (child.stdout.read(17), child.wait(timeout=20), time.monotonic() - before < 7), (b"[GNUPG:] NEWSIG\n", 0, True)
    with acting(ask, "trap '' PIPE; while echo '[GNUPG:] NEWSIG' 2> /dev/null; do :; done; exit 9"), subprocess.Popen(verify, **pipes) as child:
        child.stdout.readline()
        child.stdout.close()
        yield "nobody reads any more", child.wait(timeout=20), 9


def is_there(process):
    try:
        with open(f"/proc/{process}/stat", encoding="utf-8") as file:
            return file.read().rpartition(")")[2].split()[0] != "Z"
    except FileNotFoundError:
        return False


def gone(process):
    """Whether it ends within some seconds."""
    end = time.monotonic() + 10
    while is_there(process) and time.monotonic() < end:
        time.sleep(0.05)
    return not is_there(process)


# two primes of 512 bits, so that a thousand keys are made and signed in seconds: all have one secret, and each another date
PRIMES = (
    0xdf27b474402615f619baa4a49f0ac0170928ca2ceca468e9ce6ba18b8ad12fc9a0d4f2e345ffb65d9f9bc6d3adae2c57eafd6a994409a2329ef50006a43e3769,
    0xffb941d2b225999d15f5b42d2c57fad0d64b960d01374711cc63bbb911eeded90770623545be83c28f87425fb9c25afb6989b3ac88ec029f9873a6aa03d75a09,
)


def packet(tag, body):
    return bytes([0xC0 | tag, 0xFF]) + struct.pack(">I", len(body)) + body


def number(value):
    return struct.pack(">H", value.bit_length()) + value.to_bytes((value.bit_length() + 7) // 8, "big")


def signature_of(digest):
    """By RSA as PKCS #1 says, with the remainders by each prime."""
    first, second = PRIMES
    padded = int.from_bytes(b"\x00\x01".ljust(76, b"\xff") + b"\x00" + bytes.fromhex("3031300d060960864801650304020105000420") + digest, "big")
    parts = [pow(padded % prime, pow(65537, -1, prime - 1), prime) for prime in PRIMES]
    return parts[1] + second * ((parts[0] - parts[1]) * pow(second, -1, first) % first)


def made_key(place_of):
    """An RSA key with one user ID and its self-signature."""
    made = 1600000000 + place_of
    public = b"\x04" + struct.pack(">I", made) + b"\x01" + number(PRIMES[0] * PRIMES[1]) + number(65537)
    fpr, text = hashlib.sha1(b"\x99" + struct.pack(">H", len(public)) + public).digest(), f"{place_of} <{place_of}@example.org>".encode()
    hashed = b"\x05\x02" + struct.pack(">I", made) + b"\x02\x1b\x03\x16\x21\x04" + fpr
    head = b"\x04\x13\x01\x08" + struct.pack(">H", len(hashed)) + hashed
    signed = b"\x99" + struct.pack(">H", len(public)) + public + b"\xb4" + struct.pack(">I", len(text)) + text + head + b"\x04\xff" + struct.pack(">I", len(head))
    digest = hashlib.sha256(signed).digest()
    own_signature = head + b"\x00\x0a\x09\x10" + fpr[-8:] + digest[:2] + number(signature_of(digest))
    return packet(6, public) + packet(13, text) + packet(2, own_signature)


def processor_time():
    used = resource.getrusage(resource.RUSAGE_CHILDREN)
    return used.ru_utime + used.ru_stime


def shortest(call):
    """The least time of some calls by the clock, and by the processors, as on a busy machine the clock tells of others; and what the last gave."""
    clock, processors = [], []
    for _ in range(3):
        before = time.monotonic(), processor_time()
        given = call()
        clock.append(time.monotonic() - before[0])
        processors.append(processor_time() - before[1])
    return min(clock), min(processors), given


def many(ask):
    """A listing of many keys, which the store calls full, takes about gpg's own time."""
    keys = ask.at.here / "many.gpg"
    keys.write_bytes(b"".join(made_key(one) for one in range(MANY)))
    words = "--no-default-keyring", "--keyring", str(keys), "--with-colons", "--list-keys"
    *by_gpg, listed = shortest(lambda: ask.said(*words, program=REAL))
    me = primaries()[0]
    certified = re.sub(r"^(uid:.*\n)", rf"\1sig:!::22:{me[-16:]}:1700000000::::me:10x:\n", listed[0], flags=re.M)
    done = run(f"import\n{certified}.\n", where=ask.at.here / "store")
    yield "the store", done.stdout.decode().split(" ")[:3], ["ok", "keys", str(MANY)]
    *by_store, found = shortest(lambda: ask.said(*words))
    yield "its letters", ([one for _, one, _ in lettered(found[0])], found[1:]), (["f"] * 2 * MANY, ("", 0))
    yield "else gpg's", bare(found[0]), bare(listed[0])
    more = min(one - other for one, other in zip(by_store, by_gpg))
    yield f"its times, by the clock and by processors, {by_store}, and gpg's, {by_gpg}", more < ALLOWED, True


GPGME = """\
import json, os, sys
import gpg
def encrypted(context, key):
    try:
        context.encrypt(b"text", recipients=[key], sign=False, always_trust=False)
        return True
    except gpg.errors.InvalidRecipients:
        return False
with gpg.Context() as context:
    context.set_engine_info(gpg.constants.protocol.OpenPGP, file_name=sys.argv[1], home_dir=os.environ["GNUPGHOME"])
    keys = [context.get_key(fingerprint) for fingerprint in sys.argv[2:]]
    letters = ["?-qnmfu"[{0: 1, 1: 2, 2: 3, 3: 4, 4: 5, 5: 6}[user.validity]] for key in keys for user in key.uids]
    signatures = []
    for key in keys:
        with open("file", "rb") as file, open(key.fpr + ".sig", "rb") as signature:
            try:
                signatures += ["-qnmfu"[one.validity] for one in context.verify(file, signature)[1].signatures]
            except gpg.errors.GPGMEError as fault:
                signatures.append(type(fault).__name__)
    print(json.dumps([letters, signatures, [encrypted(context, key) for key in keys]]))
"""
GNUPG = """\
import json, os, sys
import gnupg
asked = gnupg.GPG(gpgbinary=sys.argv[1], gnupghome=os.environ["GNUPGHOME"])
keys = {key["fingerprint"]: key["trust"] for key in asked.list_keys()}
signatures = []
for fingerprint in sys.argv[2:]:
    with open(fingerprint + ".sig", "rb") as signature:
        signatures.append(asked.verify_file(signature, "file").trust_text)
print(json.dumps([[keys[one] for one in sys.argv[2:]], signatures, [asked.encrypt("text", one).ok for one in sys.argv[2:]],
    asked.encrypt("text", sys.argv[2], always_trust=True).ok]))
"""
# all that a user sets is the program
EMACS = """\
(require 'epg)
(custom-set-variables '(epg-gpg-program "gpg-wot"))
(let ((context (epg-make-context 'OpenPGP)))
  (dolist (key command-line-args-left)
    (let ((keys (epg-list-keys context key)))
      (dolist (user (epg-key-user-id-list (car keys))) (princ (format "%s " (epg-user-id-validity user))))
      (epg-verify-file context (concat key ".sig") "file")
      (let ((signature (car (epg-context-result-for context 'verify))))
        (princ (format "%s " (if signature (epg-signature-validity signature) "nothing"))))
      (princ (condition-case nil (progn (epg-encrypt-string context "text" keys) "encrypted\\n") (error "refused\\n"))))))
(setq command-line-args-left nil)
"""


def module_python(module):
    """A Python that has this module of Debian's, or nothing. It is asked elsewhere, as a script of the tests has the name of one."""
    found = [path for path in (sys.executable, "/usr/bin/python3") if os.access(path, os.X_OK)]
    return next((path for path in found if subprocess.run([path, "-c", f"import {module}"], cwd=os.sep, capture_output=True, check=False).returncode == 0), None)


def signed_by_both(ask):
    (ask.at.here / "file").write_bytes(b"content\n")
    both = primaries()[1], primaries()[3]
    for key in both:
        sign(ask.at, key)
    return both


def asked_by(ask, text, module):
    """What a client in Python says of Alice's key and of Carol's, by store."""
    both = signed_by_both(ask)
    (ask.at.here / "asking.py").write_text(text, encoding="utf-8")
    for store in ASKED:
        with ask.asking(store):
            done = ask.run("asking.py", str(CONTRIB / "gpg-wot"), *both, program=module_python(module))
        yield store, json.loads(done.stdout or "null"), done.stderr.decode()


def gpgme(ask):
    """GPGME by python3-gpg: the validity of user IDs and of signatures, and recipients."""
    for store, found, told in asked_by(ask, GPGME, "gpg"):
        full = letter(store, "f")
        yield f"{store}: {told}", found, [["-", "-", full], [] if store == "killed" else ["-", full], [False, full == "f"]]


def gnupg_module(ask):
    """python3-gnupg."""
    for store, found, told in asked_by(ask, GNUPG, "gnupg"):
        full = letter(store, "f")
        signatures = [None, None] if store == "killed" else ["TRUST_UNDEFINED", TRUST[full]]
        yield f"{store}: {told}", found, [["-", full], signatures, [False, full == "f"], True]


def git(ask):
    """git, by both names: under its own name a signature is one that can't be checked where the store can't be asked."""
    _, alice, _, carol, _ = primaries()

    def call(*words, name="gpg-wot"):
        settings = ["user.name=A", "user.email=a@example.org", f"gpg.program={CONTRIB / name}", "gpg.minTrustLevel=fully"]
        return ask.run(*(word for setting in settings for word in ("-c", setting)), *words, program="git", GIT_CONFIG_NOSYSTEM="1")
    call("init", "-q", ".")
    for name, key in (("alice", alice), ("carol", carol)):
        call("commit", "-q", "--allow-empty", f"-S{key}", "-m", name)
    for store in ASKED:
        for name in ("gpg-wot", "git-gpg-wot"):
            with ask.asking(store):
                seen, code = call("log", "--reverse", "--format=%G? %GT", name=name).stdout.decode(), call("verify-commit", "HEAD", name=name).returncode
            if store == "killed":
                yield f"{store}: {name}: {seen}", ("G " in seen, code), (False, 1)
                continue
            unknown = "U undefined\n" if name == "gpg-wot" or store == "store" else "E undefined\n"
            yield f"{store}: {name}", (seen, code), (unknown + ("G fully\n" if store == "store" else unknown), 0 if store == "store" else 1)


MAIL = """\
From a@example.org Mon Nov 30 07:00:00 2026
From: a@example.org
Date: Mon, 30 Nov 2026 07:00:00 +0000
MIME-Version: 1.0
Content-Type: multipart/signed; micalg=pgp-sha256; protocol="application/pgp-signature"; boundary=b

--b
Content-Type: text/plain; charset=us-ascii

hello

--b
Content-Type: application/pgp-signature

{signature}
--b--
"""
MUTT = """\
set crypt_use_gpgme=no crypt_verify_sig=yes prompt_after=no wait_key=no quit=yes move=no record="" header_cache="" folder="."
set pgp_verify_command="gpg-wot --status-fd=2 --no-verbose --quiet --batch --output - --verify %s %f"
set pgp_good_sign="^\\\\[GNUPG:\\\\] TRUST_(FULLY|ULTIMATE)"
set pager="{pager}"
push "<display-message><display-message><quit>"
"""


def read_mail(ask, program):
    """What mutt shows of the message in its box: the letters, whether it is marked as verified, which it is when shown again, and its text."""
    child, terminal = pty.fork()
    if child == 0:
        os.chdir(ask.at.here)
        os.execvpe(program, [program, "-n", "-F", "muttrc", "-R", "-f", "box"], {**ask.environment, "TERM": "xterm"})
    end = time.monotonic() + 20
    with contextlib.suppress(OSError):
        while time.monotonic() < end and select.select([terminal], [], [], 20)[0]:
            os.read(terminal, 65536)
    os.kill(child, signal.SIGKILL)
    os.waitpid(child, 0)
    os.close(terminal)
    shown = ask.at.here / "shown"
    text = shown.read_text(encoding="utf-8") if shown.exists() else ""
    shown.unlink(missing_ok=True)
    return re.findall(r"^wot: .*", text, re.M), re.match(r"-.?.?S ", text) is not None, "hello" in text


def mail(ask, program):
    """A signed mail in mutt or neomutt, with gpg's command set to this one: its line and the store's letters."""
    here = ask.at.here
    (here / "part").write_bytes(b"Content-Type: text/plain; charset=us-ascii\r\n\r\nhello\r\n")
    (here / "pager").write_text(f'#!/bin/sh\ncp "$1" {here}/shown\n', encoding="utf-8")
    (here / "pager").chmod(0o755)
    (here / "muttrc").write_text(MUTT.format(pager=here / "pager"), encoding="utf-8")
    _, alice, _, carol, _ = primaries()
    for store in ASKED:
        for key in (alice, carol) if store == "store" else (carol,):
            gpg("-u", key, "--armor", "--output", str(here / "part.asc"), "--detach-sign", str(here / "part"))
            (here / "box").write_text(MAIL.format(signature=(here / "part.asc").read_text(encoding="utf-8")), encoding="utf-8")
            with ask.asking(store):
                told, is_good, is_shown = read_mail(ask, program)
            if store == "killed":
                yield f"{store}: {key}", is_good, False
                continue
            yield f"{store}: {key}", (is_good, is_shown, bool(told)), (store == "store" and key == carol, True, True)
            if store == "store":
                yield f"{key}: letters", {line[:15] for line in told}, {"wot: [  full  ]" if key == carol else "wot: [ unknown]"}


def mutt(ask):
    """mutt; and its commands for encryption as the recipe has them, with what mutt puts into them."""
    yield from mail(ask, "mutt")
    _, alice, bob, carol, _ = primaries()
    (ask.at.here / "letter").write_bytes(b"a letter\n")
    recipe = (CONTRIB.parent / "docs" / "RECIPES.md").read_text(encoding="utf-8")
    commands = dict(re.findall(r'^set pgp_encrypt_(only|sign)_command="(.*)"$', recipe, re.M))
    for name, command in sorted(commands.items()):
        for to, wanted in (([carol], (0, True)), ([bob, carol], (0, True)), ([alice], (2, False)), ([carol, alice], (2, False))):
            filled = command.replace("%?a?-u %a?", f"-u {bob}").replace("%r", " ".join(to)).replace("%f", "letter")
            done = ask.run("-c", filled, program="sh")
            yield f"{name} to {len(to)}: {done.stderr.decode()}", (done.returncode, done.stdout.startswith(b"-----BEGIN PGP MESSAGE")), wanted
    yield "both", sorted(commands), ["only", "sign"]


def neomutt(ask):
    """neomutt."""
    yield from mail(ask, "neomutt")


def emacs(ask):
    """Emacs' EasyPG in batch."""
    both = signed_by_both(ask)
    (ask.at.here / "asking.el").write_text(EMACS, encoding="utf-8")
    for store in ASKED:
        with ask.asking(store):
            out, told, _ = ask.said("--batch", "-Q", "-l", "asking.el", *both, program="emacs")
        full = "full full encrypted" if letter(store, "f") == "f" else "none undefined refused"
        both_said = f"none none undefined refused\n{full}\n"
        if store == "killed":
            both_said = re.sub("(undefined|full) (refused|encrypted)", r"nothing \2", both_said)
        yield f"{store}: {told}", out, both_said


def dscverify(ask):
    """dscverify believes its keyring and asks for no trust: the store's letters are told beside its answer."""
    _, alice, _, carol, _ = primaries()
    here = ask.at.here
    (ask.at.tools / "gpg").symlink_to(CONTRIB / "gpg-wot")
    (here / "a.tar").write_bytes(b"content\n")
    (here / "file").write_text(f"Format: 1.0\nSource: a\nFiles:\n {hashlib.md5(b'content' + bytes([10])).hexdigest()} 8 a.tar\n", encoding="utf-8")
    gpg("--output", str(here / "ring.gpg"), "--export", alice, carol)
    for store in ASKED:
        for key in (alice, carol) if store == "store" else (carol,):
            sign(ask.at, key, "--clearsign")
            with ask.asking(store):
                out, told, code = ask.said("--verbose", "--no-default-keyrings", "--keyring", str(here / "ring.gpg"), f"{key}.sig", program="dscverify")
            if store == "killed":
                yield f"{store}: {key}: {out}", ("Good signature found" in out, code), (False, 1)
                continue
            told_of = {line[:15] for line in re.findall("^wot: .*", out, re.M)}
            yield f"{store}: {key}: {told}", ("Good signature found" in out, code), (True, 0)
            yield f"{store}: {key}: letters: {out}", bool(told_of) and (store != "store" or told_of == {"wot: [  full  ]" if key == carol else "wot: [ unknown]"}), True
    (ask.at.tools / "gpg").unlink()


def checked(check):
    """Runs a check over fresh stores; what it found that is another than was wanted, and how many things were looked at."""
    count, faults = 0, []
    with client() as ask:
        for name, found, wanted in check(ask):
            count += 1
            if found != wanted:
                faults.append(f"gpg_wot: {check.__name__}: {name}: {found!r} in place of {wanted!r}")
    return count, faults


def lacking():
    """The checks that need a client which isn't there, and how that is said."""
    needs = {git: "git", mutt: "mutt", neomutt: "neomutt", emacs: "emacs", dscverify: "dscverify"}
    left = {check: f"{check.__name__}: no {tool}" for check, tool in needs.items() if not shutil.which(tool)}
    left |= {check: f"{check.__name__}: no Python has python3-{module}" for check, module in ((gpgme, "gpg"), (gnupg_module, "gnupg")) if module_python(module) is None}
    return left


CHECKS = (status, listings, recipients, streams, signals, many, git, mutt, neomutt, emacs, dscverify, gpgme, gnupg_module, worse_of_both)


def main():
    left, count, faults = lacking(), 0, []
    with folder() as home:
        os.environ["GNUPGHOME"] = home
        try:
            make_keyring()
            for check in CHECKS:
                if check not in left:
                    done, wrong = checked(check)
                    count, faults = count + done, faults + wrong
        except NoGnuPG as fault:
            left = {main: f"what needs a gpg keyring: {fault}"}
        finally:
            if shutil.which("gpgconf"):
                subprocess.run(["gpgconf", "--kill", "all"], capture_output=True, check=False)
    if faults:
        sys.exit("\n".join(faults))
    print("; ".join([f"gpg_wot: {count} ok", *(f"skipped: {why}" for why in left.values())]))


if __name__ == "__main__":
    main()
