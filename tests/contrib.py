#!/usr/bin/env python3
"""Runs the programs of contrib/ as they stand, over a keyring that gpg makes for it, and asks by its module over a pipe.

It skips, and says so, what needs gpg, git, bash or dpkg-deb where there is none, and what needs `check` and `compact` where the built
program does not know them. A gpg that fails is a script in front of the real one.
"""
import contextlib
import html.parser
import os
import pathlib
import re
import shutil
import subprocess
import sys

from reference.program import PROGRAM, by, fingerprint, folder, imported, key, run, trust

TOP = pathlib.Path(__file__).resolve().parent.parent
CONTRIB = TOP / "contrib"
PROGRAMS = (
    "deb", "git-gpg-wot", "gpg-wot", "wot-critical", "wot-history", "wot-import", "wot-in", "wot-list", "wot-nightly", "wot-report", "wot-suppose", "wot-sync", "wot-verify", "wot-why",
    "wot-why-not", "wot.py",
)
sys.path.insert(0, str(CONTRIB))
sys.dont_write_bytecode = True
import wot  # noqa: E402
import wot_explain  # noqa: E402

ULTIMATE, FULL, UNDEFINED = 6, 5, 2
KNOWS_CHECK = run("check\n").stdout != b"err unknown-command\n"


class NoGnuPG(Exception):
    pass


def gpg(*words, given=""):
    always = ["gpg", "--batch", "--yes", "--quiet", "--no-tty", "--pinentry-mode", "loopback", "--passphrase", ""]
    try:
        return subprocess.run([*always, *words], input=given, capture_output=True, text=True, check=True, timeout=60).stdout
    except (OSError, subprocess.SubprocessError) as fault:
        raise NoGnuPG(fault) from fault


def primaries():
    return re.findall(r"^pub:.*\nfpr:{9}([0-9A-F]{40}):", gpg("--with-colons", "--list-keys"), re.M)


def own(*numbers):
    """Sets the ownertrust of the keys in their order."""
    gpg("--import-ownertrust", given="".join(f"{fpr}:{number}:\n" for fpr, number in zip(primaries(), numbers)))


def make_keyring():
    """My key certifies Alice's, and hers Bob's; nobody certifies Carol's. The first key is mine."""
    for name, expires in (("Me", "never"), ("Alice", "never"), ("Bob", "2y"), ("Carol", "never")):
        gpg("--quick-generate-key", f"{name} <{name.lower()}@example.org>", "ed25519", "default", expires)
    me, alice, bob, _ = primaries()
    gpg("--quick-add-key", bob, "cv25519", "encr", "never")
    gpg("--default-key", me, "--quick-sign-key", alice)
    gpg("--default-key", alice, "--quick-sign-key", bob)
    own(ULTIMATE, FULL, UNDEFINED, UNDEFINED)


class Place:
    """A folder to work in, with the programs on the path, a home of its own, and a store that a sync makes."""

    def __init__(self, here, tools):
        self.here, self.tools = pathlib.Path(here), pathlib.Path(tools)
        (self.tools / "wot").symlink_to(PROGRAM)
        path = os.pathsep.join([str(self.tools), str(CONTRIB), os.environ["PATH"]])
        self.environment = {**os.environ, "PATH": path, "HOME": here, "PYTHONDONTWRITEBYTECODE": "1", "WOT_STORE": str(self.here / "store")}
        for name in ("XDG_DATA_HOME", "WOT"):
            self.environment.pop(name, None)

    def run(self, *words, given=None, **names):
        environment = {**self.environment, **names}
        return subprocess.run(words, input=given, capture_output=True, text=True, cwd=self.here, env=environment, timeout=120, check=False)

    def status(self, *words, **names):
        return self.run(*words, **names).returncode

    @contextlib.contextmanager
    def stand_in(self, name, option, action):
        """A program that does something else where it is called with this option."""
        real, path = shutil.which(name), self.tools / name
        path.write_text(f'#!/bin/sh\ncase " $* " in\n*{option}*) {action.replace("REAL", real)} ;;\n*) exec {real} "$@" ;;\nesac\n', encoding="utf-8")
        path.chmod(0o755)
        yield
        path.unlink()

    def failing_gpg(self, option, action):
        return self.stand_in("gpg", f'" {option} "', action)

    def letters(self):
        """The letters of the store, by the first word of the text."""
        with wot.Wot(self.here / "store", PROGRAM) as store:
            return {user.text.split(" ")[0]: user.letter for one in store.keyring().keys for user in one.users}

    def beside(self):
        """What stands in the folder, the random ends of names left out."""
        return sorted({re.sub(r"\.sync-made\..{10}\Z", ".sync-made", path.name) for path in self.here.iterdir()})

    def made(self):
        """How many folders of syncs there are."""
        return len(list(self.here.glob("store.sync-made.??????????")))


@contextlib.contextmanager
def place():
    with folder() as here, folder() as tools:
        yield Place(here, tools)


@contextlib.contextmanager
def synced():
    with place() as at:
        assert at.status("wot-sync") == 0
        yield at


def helps():
    """Each program tells how it is called, and does nothing."""
    with place() as at:
        for name in PROGRAMS:
            done = at.run(name, "--help")
            yield name, (done.returncode, done.stderr, name in done.stdout, at.beside()), (0, "", True, [])


def raised(call):
    """The exception of a call: its class, its text and its status."""
    try:
        return call()
    except (wot.WotError, ValueError) as fault:
        return type(fault).__name__, str(fault), getattr(fault, "status", None)


def asked():
    """The module over a pipe: replies with and without lines, blocks, refusals, and how the program ends."""
    a = fingerprint("A")
    with folder() as where:
        yield "no store", raised(lambda: wot.Wot(where, PROGRAM))[0], "NoStore"
        yield "no program", raised(lambda: wot.Wot(where, where + "/none", new=True)), ("Ended", f"{where}/none: No such file or directory", None)
        with wot.Wot(where, PROGRAM, new=True) as store:
            yield "an edit", store.ask(f"trust {a} u"), []
            yield "a block", store.replied("import", (key("A", text="A\\x3a \\xff<a@example.org>") + key("B", "A")).splitlines(True)), ["ok keys 2 kept 1 passed 0"]
            yield "a text", store.keyring().keys[0].users[0].text, "A: \udcff<a@example.org>"
            yield "an entry", store.ask("export"), [f"{a}:6:"]
            for name, command, wanted in (
                ("no key", f"delete {fingerprint('C')}", ("NoSuchKey", "no-such-key", None)),
                ("no user ID", f"why {a} 2", ("NoSuchUser", "no-such-user", None)),
                ("a bad word", f"trust {a} x", ("BadArgument", "bad-argument 2", None)),
                ("no command", "frob", ("UnknownCommand", "unknown-command", None)),
                ("a long line", "x" * 65537, ("LineTooLong", "line-too-long", None)),
                ("two commands", "list\nlist", ("ValueError", "not one command: 'list\\nlist'", None)),
                ("a comment", " # list", ("ValueError", "not one command: ' # list'", None)),
                ("nothing", "", ("ValueError", "not one command: ''", None)),
                ("a block is missing", "import", ("ValueError", "import: a block is missing", None)),
            ):
                yield name, raised(lambda command=command: store.ask(command)), wanted
            yield "a bad listing", raised(lambda: store.ask("import", ["", "pub:"])), ("BadListing", "listing 2 ShortRecord", None)
            yield "an end in a block", raised(lambda: store.ask("import", ["."]))[0], "ValueError"
            yield "another run", raised(lambda: wot.Wot(where, PROGRAM, wait=0.1).ask("list")), ("Held", "another run of wot holds the store", 5)
            yield "the session goes on", store.letter("b@example.org"), "f"
            store.ask("quit")
            yield "after quit", [raised(lambda: store.ask("list")) for _ in range(2)], [("Ended", "wot ended with status 1", 1)] * 2
        yield "closed", raised(lambda: store.ask("list"))[0], "Ended"
        asks = "import sys, wot\nfor _ in range(6):\n    with wot.Wot(sys.argv[1], sys.argv[2], wait=30) as store: store.ask('list')"
        words = [sys.executable, "-c", asks, where, PROGRAM]
        others = [subprocess.Popen(words, cwd=CONTRIB, stderr=subprocess.PIPE) for _ in range(4)]
        yield "several at once wait for each other", [(other.communicate(timeout=120)[1], other.returncode) for other in others], [(b"", 0)] * 4
        shutil.copy(where + "/wot.0", where + "/wot.1")
        yield "a bad store", raised(lambda: wot.Wot(where, PROGRAM).ask("list")), ("Ended", "wot: bad store: SameEpoch", 6)
    yield "no folder", raised(lambda: wot.Wot("/nowhere", PROGRAM))[0], "NoStore"


def addresses():
    """Whose letter an address has: in any case, bare, and only as a whole; and to whom a letter may be encrypted."""
    texts = {
        "A": "Ann <ann@example.org>", "B": "BOB@Example.org", "C": "Eve <ann@example.org> <eve@example.org>",
        "D": "ann@example.org.example.com", "E": "Ann <ANN@example.org>", "F": "Ann <ann@example.org>",
    }
    keys = [key(name, "A", text=text).replace("scSC", "scESC" if name in "ABEF" else "scSC") for name, text in texts.items()]
    keys[0] = keys[0].replace(by("A"), "").replace("scESC", "scSC")
    with folder() as where:
        run(trust("A", "u") + imported(*keys) + f"disable {fingerprint('F')}\n", where=where)
        with wot.Wot(where, PROGRAM) as store:
            yield "letters", store.letters("ann@EXAMPLE.org"), {fingerprint("A"): "u", fingerprint("E"): "f", fingerprint("F"): "f"}
            yield "bare", store.letter("bob@example.ORG"), "f"
            yield "of nobody", [store.letter(one) for one in ("eve@example.org", "ann", "example.org", "ann@example.orK", "")], ["-"] * 5
            yield "to encrypt to", store.encrypt_to("Ann@example.org"), [fingerprint("E")]
    with place() as at:
        run(trust("A", "u") + imported(*keys), where=at.here)
        done = at.run("wot.py", "--store", ".", "bob@example.org")
        yield "as a program", (done.stdout, done.returncode), (f"f {fingerprint('B')}\n", 0)
        yield "as a program, of nobody", at.status("wot.py", "--store", ".", "x@example.org"), 1
        yield "as a program, without a store", at.status("wot.py", "--store", "none", "x@example.org"), 2


@contextlib.contextmanager
def store_of(given):
    with place() as at:
        run(given, where=at.here)
        yield lambda *words: at.run(words[0], "--store", ".", *words[1:])


def session(name):
    return (TOP / "examples" / name / "input").read_bytes()


HANA = """\
[  full  ] Hana <hana@example.org> 0000000000000000000000000000000000000022
  certified on 1970-01-01 by Finn <finn@example.org>, fully trusted
    certified on 1970-01-01 by Cleo <cleo@example.org>, marginally trusted
      certified on 1970-01-01 by Ada <ada@example.org>, ultimately trusted
    certified on 1970-01-01 by Dan <dan@example.org>, marginally trusted
      certified on 1970-01-01 by Ada <ada@example.org>, ultimately trusted
    certified on 1970-01-01 by Eve <eve@example.org>, marginally trusted
      certified on 1970-01-01 by Ada <ada@example.org>, ultimately trusted
  certified on 1970-01-01 by Gus <gus@example.org>, marginally trusted by a trust signature of Ben <ben@example.org> of 1970-01-01
    certified on 1970-01-01 by Ben <ben@example.org>, fully trusted by a trust signature of Ada <ada@example.org> of 1970-01-01
      certified on 1970-01-01 by Ada <ada@example.org>, ultimately trusted
"""


def told():
    """The programs for people over worked keyrings."""
    with store_of(session("levels")) as ask:
        yield "why", ask("wot-why", "HANA@example.org").stdout, HANA
        yield "why, by key ID", ask("wot-why", "0x0000000000000022").stdout, HANA
        yield "why, of nobody", (ask("wot-why", "nobody").stdout, ask("wot-why", "nobody").returncode), ("", 1)
        listed = ask("wot-list", "Ada", "00000000000000FF")
        yield "list", (listed.stdout, listed.returncode), (
            "as of 1970-01-01 00:00:00 UTC; nothing expires\n"
            "\npub   ed25519 1970-01-01 [SC] [ownertrust: ultimate]\n      00000000000000000000000000000000000000AA\n"
            "uid           [ultimate] Ada <ada@example.org>\n"
            "\npub   ed25519 1970-01-01 [SC] [ownertrust: full]\n      00000000000000000000000000000000000000FF\n"
            "uid           [  full  ] Finn <finn@example.org>\n", 0)
        yield "list, of nobody", ask("wot-list", "nobody").returncode, 1
        yield "list, without a store", ask("wot-list", "--store", "none").returncode, 2
    with place() as at:
        run(imported(key("A", text="\u4e2d")), where=at.here)
        done = at.run("wot-list", "--store", ".", PYTHONIOENCODING="latin-1")
        yield "letters that the terminal doesn't have", (done.stdout.splitlines()[-1:], done.returncode), (["uid           [ unknown] \\u4e2d"], 0)
    with store_of(session("domain")) as ask:
        yield "why, by a scope", ask("wot-why", "C <").stdout, (
            f"[  full  ] C <c@example.org> {fingerprint('C')}\n"
            "  certified on 1970-01-01 by B <b@example.org>, fully trusted by a trust signature of A <a@example.org> of 1970-01-01, for example.org alone\n"
            "    certified on 1970-01-01 by A <a@example.org>, ultimately trusted\n")
    with store_of(trust("A", "u") + imported(key("A", text="\\x1b[31mA\u202e"), key("B", "A", text="B\\x3a"))) as ask:
        yield "letters that would change the screen", ask("wot-why", "B:").stdout, (
            f"[  full  ] B: {fingerprint('B')}\n  certified on 1970-01-01 by \\x1b[31mA\\u202e, ultimately trusted\n")


def many():
    """An explanation of more introducers than can be read: few that are enough come first."""
    names = [f"{number:02X}" for number in range(0x20, 0x40)]
    given = trust("A", "u") + "".join(trust(name, "m") for name in names) + trust("B", "f")
    given += imported(key("A"), key("B", *names[:30]), *(key(name, "A") for name in [*names, "E"]), key("C", "B", *names), key("D", "E", *names))
    with store_of(given) as ask:
        short, whole = ask("wot-why", "c@example.org").stdout.splitlines(), ask("wot-why", "--all", "c@example.org").stdout
        yield "few", short[:4] + short[-2:], [
            f"[  full  ] C <c@example.org> {fingerprint('C')}", "  rests on 34 introducers; of those who certify a key the fewest are shown that are enough",
            "  certified on 1970-01-01 by B <b@example.org>, fully trusted", "    certified on 1970-01-01 by 20 <20@example.org>, marginally trusted", "    and by 27 more who count", "  and by 32 more who count",
        ]
        yield "who counts for nothing", [line for line in ask("wot-why", "d@example.org").stdout.splitlines() if "nothing" in line], ["  and by 1 who count for nothing"]
        yield "all", (len(short), whole.count("certified on"), "as told above" in whole), (11, 33 + 30 + 32, True)


def blocks_of(lines):
    """The lines of each key of a printed listing, by key ID."""
    found = {}
    for line in lines:
        if line.startswith("pub:"):
            found[line.split(":")[4]] = []
        if found:
            list(found.values())[-1].append(line)
    return found


def left_by(explained, key_id):
    """The depth that an introducer has left, by the trust signature that is found for it."""
    cert = explained.trusted_by[key_id]
    if cert is None:
        return 0
    issuer = explained.why.rows[cert.issuer]
    return (cert.depth if issuer.trust == "u" else min(cert.depth, issuer.left)) - 1


def counted_again():
    """Over made keys: who made whom an introducer is counted as the program does, and the few that are shown are enough by themselves."""
    date = "date 1650000000\n"
    with folder() as where, wot.Wot(where, PROGRAM, new=True) as store:
        store.ask(date.strip())
        try:
            store.ask("sample 7 300")
        except wot.UnknownCommand:
            return
        people, blocks, owners = wot_explain.People(store.keyring(certifications=True)), blocks_of(store.ask("sigs")), store.ask("export")
        valid = [key for key in people.keyring.keys if key.letter == "f"][-40:]
        asked_for = [(key, wot_explain.Explained(people, store.why(key.fingerprint))) for key in valid]
    introducers = [(explained, key_id) for _, explained in asked_for for key_id in explained.trusted_by]
    passed_on = [left_by(explained, key_id) for explained, key_id in introducers]
    yield "what each may pass on", (passed_on, any(passed_on)), ([explained.why.rows[key_id].left for explained, key_id in introducers], True)
    enough = [people.are_enough([explained.why.rows[k].trust for k in certifiers]) for _, explained in asked_for for certifiers in explained.certifiers.values()]
    yield "enough certifiers", (all(enough), len(enough) > 100), (True, True)
    for key, explained in asked_for:
        kept = set().union(*(explained.support[key_id] for key_id in explained.few(None)))
        lines = [line for key_id in {*kept, key.key_id} for line in blocks[key_id] if line[:3] != "sig" or line.split(":")[4] in kept]
        given = [date + "ownertrust", *owners, ".", "import", *lines, ".", f"list {key.fingerprint}", ""]
        listed = run("\n".join(given)).stdout.decode()
        yield f"the few of {key.key_id}", re.findall(r"^uid:(.)", listed, re.M), ["f"]


def reason(given, text="C", *words):
    """What is said of the one user ID of this name, and of those who don't count for it."""
    with store_of(given) as ask:
        lines = ask("wot-why", *words, f"{text} <").stdout.splitlines()[1:]
    return [re.sub(r"^  certified on 1970-01-01(?: until 1970-01-01)? by (.*), wh(?:o|ich) (?:doesn't count|counts for nothing): ", r"\1: ", line) for line in lines]


def reasons():
    """Why a user ID is not valid: each reason, over a keyring that has it, and what is missing."""
    def with_b(*certs, own=trust("B", "f"), more="", date="date 5000\n", expires=""):
        return trust("A", "u") + own + date + more + imported(key("A"), key("B", "A", expires=expires), key("C", *certs))
    scope = "<[^>]+[@.]example\\x5c.net>$"
    trusting = imported(key("B", by("A", trusts="1 120", scope=scope)))
    none = "  missing for full: 0 of 1 full, 0 of 3 marginal"
    for name, given, wanted in (
        ("nobody", with_b(), "  no key certified it, or gpg could check no certification of it"),
        ("not there", with_b("D"), "the key 00000000000000DD: its key is not in the store"),
        ("expired", with_b(by("B", expires=4000)), "B <b@example.org>: it expired on 1970-01-01"),
        ("taken back", with_b(by("B", record="rev", kind="30x")), "B <b@example.org>: it was taken back on 1970-01-01"),
        ("below the level", with_b(by("B", kind="11x")), "B <b@example.org>: it is of a class below min-cert-level 2"),
        ("a revoked key", with_b("D", more=imported(key("D", "A").replace("pub:-", "pub:r"))), "D <d@example.org>: no introducer: its key is revoked"),
        ("an expired key", with_b("B", expires=4000), "B <b@example.org>: no introducer: its key is expired"),
        ("not valid", with_b("D", more=imported(key("D"))), "D <d@example.org>: no introducer: its own key is not valid, [ unknown]"),
        ("too deep", with_b("B", more="options pgp 1 3 1 2\n"),
         "B <b@example.org>: too deep: it is 1 steps away from a key of yours, and introducers may be 0 (max-cert-depth 1)"),
        ("outside the scope", with_b("B", own="") + trusting, "B <b@example.org>: outside its scope: it is trusted for example.net alone"),
        ("outside a scope of another form", with_b("B", own="") + trusting.replace("example\\x5c.net", "example.net"),
         "B <b@example.org>: outside its scope: it is trusted for nobody, by a scope of another form"),
    ):
        yield name, reason(given), [none, wanted]
    ada = "    certified on 1970-01-01 by A <a@example.org>, ultimately trusted"
    for name, given, wanted in (
        ("never", with_b("B", own=trust("B", "n")), ["B <b@example.org>: never trusted", none]),
        ("too few", with_b("B", own=trust("B", "m")),
         ["  certified on 1970-01-01 by B <b@example.org>, marginally trusted", ada, "  missing for full: 0 of 1 full, 1 of 3 marginal"]),
        ("too few of the full", with_b("B", more="options pgp 2 3 5 2\n"),
         ["  certified on 1970-01-01 by B <b@example.org>, fully trusted", ada, "  missing for full: 1 of 2 full, 0 of 3 marginal"]),
        ("is valid", with_b("B", by("D", expires=9000)), ["  certified on 1970-01-01 by B <b@example.org>, fully trusted", ada]),
        ("a revoked user ID", with_b("B").replace("uid:-::::1000::::C", "uid:r::::1000::::C"), ["  it, or its key, was revoked, whoever certified it"]),
        ("an expired user ID", with_b("B").replace("uid:-::::1000::::C", "uid:-::::1000:4000:::C"), ["  it, or its key, expired on 1970-01-01, whoever certified it"]),
    ):
        yield name, reason(given), wanted
    yield "all of a valid one", reason(with_b("B", "D"), "C", "--all")[2:], ["the key 00000000000000DD: its key is not in the store"]
    yield "a level that is known", reason(with_b(by("B", kind="11x"), more="options pgp 1 3 5 1\n"), "C", "--min-cert-level", "1")[1:], [ada]
    yield "the chain", reason(session("chain-too-long"), "F"), [
        none, "E <e@example.org>: too deep: it is 5 steps away from a key of yours, and introducers may be 4 (max-cert-depth 5)"]


class Page(html.parser.HTMLParser):
    """The elements of a page that are not closed, and what it would ask for."""

    def __init__(self, text):
        super().__init__()
        self.open, self.asked, self.count = [], [], 0
        self.feed(text)

    def handle_starttag(self, tag, attrs):
        self.count += 1
        self.open += [tag] if tag not in ("meta", "br") else []
        self.asked += [tag] if tag in ("script", "link", "img", "iframe", "object") else []
        self.asked += [name for name, value in attrs if name in ("src", "srcset", "action") or name.startswith("on") or name == "href" and value[:1] != "#"]

    def handle_startendtag(self, tag, attrs):
        self.count += 1

    def handle_endtag(self, tag):
        self.open.pop(len(self.open) - 1 - self.open[::-1].index(tag))


def report():
    """One page that asks for nothing, with the letters, what changed, and the picture of an explanation."""
    with place() as at:
        run(session("levels") + imported(key("C1", "AA", text="<script>x</script> \\x22&<x@example.org>")).encode(), where=at.here)
        (at.here / "letters").write_text(f"f {fingerprint('BB')} Ben <ben@example.org>\n- {fingerprint('CC')} Cleo <cleo@example.org>\nf {fingerprint('C2')} Old\n", encoding="utf-8")
        done = at.run("wot-report", "--store", ".", "--since", "letters", "--why", "hana@example.org", "--why", "nobody", "page.html")
        yield "it is written", (done.returncode, done.stdout, done.stderr, at.beside()), (0, "", "", ["letters", "page.html", "wot.0", "wot.1"])
        text = (at.here / "page.html").read_text(encoding="utf-8")
        page = Page(text)
        yield "a whole page", (page.open, page.asked, "http://www.w3.org/2000/svg" in text, text.count("//")), ([], [], True, 1)
        yield "its text is text", "&lt;script&gt;x&lt;/script&gt; &quot;&amp;&lt;x@example.org&gt;" in text, True
        picture = re.search(r"<svg.*?</svg>", text, re.S)[0]
        yield "its picture", (picture.count("<rect"), picture.count("<line"), "&lt;finn@example.org&gt;<" in picture), (8, 10, True)
        changed = text.partition("What changed")[2].partition("<h2>")[0]
        rows = [re.sub(r"<[^>]*>", " ", row).split() for row in changed.split("<tr>")[2:]]
        yield "what changed", [row[:3] for row in rows if row[-1][-2:] in ("BB", "CC", "C2")], [["full", "gone", "Old"], ["unknown", "full", "Cleo"]]
        yield "nobody", "nobody of that name: nobody" in text, True
        yield "to standard output", at.run("wot-report", "--store", ".", "-").stdout.startswith("<!DOCTYPE html>"), True
        yield "without a store", (at.status("wot-report", "--store", "none", "page.html"), (at.here / "page.html").read_text(encoding="utf-8") == text), (2, True)


def completion():
    """What bash offers behind words; where there is no store, none is made."""
    script = 'source "$1"; shift; COMP_WORDS=("$@"); COMP_CWORD=$(($# - 1)); complete -p "$1" | grep -q _programs && _wot_programs || _wot; printf "%s " "${COMPREPLY[@]}"'
    with place() as at:
        def offered(*words):
            return at.run("bash", "-c", script, "bash", str(CONTRIB / "wot.bash"), *words).stdout.split()
        yield "a command", offered("wot", "--workers", "2", "e"), ["enable", "export"]
        yield "a letter", offered("wot", "trust", "AA", ""), list("oqnmfu")
        yield "a command behind what bash splits", offered("wot", "--workers", "=", "4", "tr"), ["trust"]
        yield "no store", (offered("wot", "list", ""), at.beside()), ([], [])
        run(imported(key("A"), key("B")), where=at.here)
        yield "a fingerprint", offered("wot", "why", "0" * 38 + "b"), [fingerprint("B")]
        yield "an option", offered("wot-why", "--min"), ["--min-cert-level"]
        names = [name for name in PROGRAMS if "gpg" not in name]
        told_of = {name: sorted({*re.findall(r"--[a-z-]+", at.run(name, "--help").stdout)}) for name in names}
        yield "all options", {name: sorted(offered(name, "--")) for name in names}, told_of
    page = (TOP / "docs" / "MANUAL.md").read_text(encoding="utf-8").split("## Commands\n")[1].split("\n## ")[0]
    commands = {name for row in re.findall(r"^\| (`[^|]*) \|", page, re.M) for name in re.findall(r"`([a-z]+)", row)}
    with place() as at:
        words = at.run("bash", "-c", script, "bash", str(CONTRIB / "wot.bash"), "wot", "").stdout.split()
        yield "all commands", sorted(commands - set(words)), []


def package():
    """The package is put into a folder, and runs from there."""
    with place() as at:
        (at.here / "root").mkdir()
        done = at.run("deb", "--version", "1.2", PROGRAM)
        name = done.stdout.strip()
        yield "it is made", (done.returncode, done.stderr, re.fullmatch(r"wot_1\.2_\w+\.deb", name) is not None, at.beside()), (0, "", True, ["root", name])
        yield "it is unpacked", at.status("dpkg-deb", "-x", name, "root"), 0
        root = at.here / "root" / "usr"
        tools = {path.name for path in (root / "bin").iterdir()}
        yield "its programs", tools, {"wot", *(set(PROGRAMS) - {"deb", "wot.py"})}
        path = str(root / "bin") + os.pathsep + os.environ["PATH"]
        run(session("levels"), where=at.here)
        yield "wot-why from there", at.run("wot-why", "--store", ".", "hana@example.org", PATH=path).stdout, HANA
        yield "wot from there", at.run("wot", "list", fingerprint("AA"), PATH=path).returncode, 0
        yield "each tells its help", [at.status(tool, "--help", PATH=path) for tool in sorted(tools - {"wot"})], [0] * (len(tools) - 1)
        asks = "import wot; print(wot.Wot('.').letter('hana@example.org'))"
        yield "the module", at.run(sys.executable, "-c", asks, PATH=path, PYTHONPATH=str(root / "lib" / "python3" / "dist-packages")).stdout, "f\n"
        yield "the completion", at.run("sh", "-c", f"cmp {root}/share/bash-completion/completions/wot-why {CONTRIB}/wot.bash").returncode, 0
        page = at.run("sh", "-c", f"gzip -d < {root}/share/man/man1/wot.1.gz | cmp - {TOP}/docs/wot.1")
        yield "the man page", (page.returncode, page.stderr), (0, "")
        yield "no program", (at.status("deb", "none"), at.status("deb"), at.status("deb", PROGRAM, "none")), (2, 2, 2)
        if KNOWS_CHECK and shutil.which("gpg"):
            yield "a nightly run from there, without a keyring", at.status("wot-nightly", "night", PATH=path, GNUPGHOME=str(at.here)), 2


def sync():
    """A store is made of what gpg says, and replaced as a whole or not at all."""
    me, alice, bob, carol = primaries()
    wanted = {"Me": "u", "Alice": "f", "Bob": "f", "Carol": "-"}
    with place() as at:
        done = at.run("wot-sync")
        yield "the first", (done.returncode, done.stdout, done.stderr), (0, "", "")
        yield "its letters", at.letters(), wanted
        yield "its folder", at.beside(), ["store", "store.lock", "store.sync-made"]
        yield "its files", sorted(os.listdir(at.here / "store")), ["wot.0", "wot.1"]
        run(f"trust {carol} u\n" + imported(key("A")), where=at.here / "store")
        first = os.readlink(at.here / "store")
        yield "the second", at.status("wot-sync"), 0
        yield "what gpg doesn't have is gone", at.letters(), wanted
        yield "the former one stays", (at.here / first).exists() and os.readlink(at.here / "store") != first, True
        yield "until the next", (at.status("wot-sync"), (at.here / first).exists(), at.made()), (0, False, 2)
        yield from kept_beside(at)
        yield from stopped_syncs(at)
        yield from refused_syncs(at, wanted)
        yield "options", (at.status("wot-sync", "--options", "pgp 1 3 1 2"), at.letters()["Bob"]), (0, "-")
        told = "wot-sync: gpg has trust-model pgp, completes-needed 1, marginals-needed 3, max-cert-depth 5, and the letters here are by pgp 1 3 1: give --options as they are in gpg, 'pgp 1 3 5 2'\n"
        yield "which differ from gpg's", at.run("wot-sync", "--options", "pgp 1 3 1 2").stderr, told
        (at.here / "keys.gpg").write_bytes(subprocess.run(["gpg", "--export", me, alice], capture_output=True, check=True).stdout)
        (at.here / "trusts").write_text(f"# mine\n{alice}:6:\n", encoding="utf-8")
        yield "a file of keys", at.status("wot-sync", "--keyring", "keys.gpg", "--root", me, "other"), 0
        yield "and of ownertrust", at.status("wot-sync", "--keyring", "keys.gpg", "--ownertrust", "trusts", "store/"), 0
        yield "their letters", at.letters(), {"Me": "-", "Alice": "u"}
        yield "a named root that is none", at.run("wot-sync", "--root", bob).stderr, f"wot-sync: {bob} is not ultimately trusted\n"
        (at.here / "trusts").write_text(f"{me}:6:\n{me}:5:\n", encoding="utf-8")
        done = at.run("wot-sync", "--ownertrust", "trusts", "--root", me)
        yield "a root that a later line takes back", (done.returncode, done.stderr), (2, f"wot-sync: {me} is not ultimately trusted\nno key is ultimately trusted\n")
        for name in ("HOME", "WOT_STORE"):
            del at.environment[name]
        yield "no home", (at.status("wot-sync", "store"), at.run("wot-sync").stderr), (0, "wot-sync: no HOME: name the store\n")


def kept_beside(at):
    """A sync takes away what syncs made, also the former version, and nothing else."""
    mine = ["store.sync.mine", "store.sync.copied", "store.sync-made.mine", "store.sync-made.my-backups", "store.sync-made.AAAAAAAAAAA"]
    for name in mine:
        (at.here / name).mkdir()
    left = at.here / "store.sync-made.AAAAAAAAAA.link"
    left.symlink_to("store")
    former = at.here / os.readlink(at.here / "store")
    former.rename(at.here / "store.sync.AbCd12")
    (at.here / "store").unlink()
    (at.here / "store").symlink_to("store.sync.AbCd12")
    yield "what is left of a sync that was killed", (at.status("wot-sync"), left.is_symlink()), (0, False)
    yield "a former version's stays", (at.here / "store.sync-made.0000AbCd12" / "wot.0").exists(), True
    yield "until the next, which keeps what others made", (
        at.status("wot-sync"), at.made(), sorted(path.name for path in at.here.glob("store.sync*") if path.name in mine or "Cd12" in path.name),
    ), (0, 3, sorted(mine))
    for name in mine:
        shutil.rmtree(at.here / name, ignore_errors=True)


def stopped_syncs(at):
    """A signal while the fresh store takes its place, and a disk that is full."""
    for signal, action in (("TERM", "$PPID"), ("INT", "$PPID"), ("KILL", "$$")):
        before = os.readlink(at.here / "store")
        with at.stand_in("mv", ".link", f'REAL "$@"; kill -{signal} {action}'):
            status = at.status("wot-sync")
        yield f"{signal} when it is in place", (status, os.readlink(at.here / "store") != before, (at.here / "store" / "wot.0").exists()), (0, True, True)
    before = os.readlink(at.here / "store")
    with at.stand_in("cat", "", "REAL | head -n 20; exit 1"):
        done = at.run("wot-sync")
    yield "a full disk", (done.returncode, "can't be written" in done.stderr, os.readlink(at.here / "store") == before), (2, True, True)
    at.status("wot-sync")


def refused_syncs(at, wanted):
    """What makes a sync fail; the store stays, and nothing else is left."""
    half = 'REAL "$@" | head -n 5; exit 2'
    for name, option, action, told_of in (
        ("no ownertrust", "--export-ownertrust", "exit 2", "gpg --export-ownertrust failed with status 2"),
        ("half the ownertrust", "--export-ownertrust", half, "gpg --export-ownertrust failed with status 2"),
        ("no listing", "--check-sigs", "exit 2", "gpg --check-sigs failed with status 2"),
        ("half a listing", "--check-sigs", half, "gpg --check-sigs failed with status 2"),
        ("an empty listing", "--check-sigs", "exit 0", r"gpg listed no key \(ok keys 0 kept 0 passed 0\)"),
        ("an unchecked listing", "--check-sigs", 'REAL "$@" | sed "s/^sig:!/sig:/"', r"no certification was kept: .* \(ok keys 4 kept 0 passed \d+\)"),
        ("a listing without my key", "--check-sigs", f"REAL \"$@\" | awk -F: '$1 == \"pub\" {{ mine = $5 == \"{primaries()[0][-16:]}\" }} !mine'", "the ultimately trusted key .* is not in the keyring"),
        ("no root", "--export-ownertrust", 'REAL "$@" | sed "s/:6:/:5:/"', "no key is ultimately trusted"),
        ("a bad listing", "--check-sigs", 'REAL "$@"; echo pub:', r"wot import: err listing \d+ ShortRecord: pub:"),
        ("a bad ownertrust", "--export-ownertrust", "printf 'x\\033\\n'", r"wot ownertrust: err ownertrust 1 BadShape: x\?"),
    ):
        with at.failing_gpg(option, action):
            done = at.run("wot-sync")
        found = done.returncode, re.fullmatch(f"wot-sync: {told_of}\n", done.stderr) is not None
        yield f"{name}: {done.stderr}", (found, at.letters() == wanted, at.made()), ((2, True), True, 2)
    for name, words in (
        ("a program that isn't there", {"WOT": "none"}),
        ("a program that fails", {"WOT": "false"}),
    ):
        yield name, (at.status("wot-sync", **words), at.letters() == wanted), (2, True)
    for words in (("--options", "pgp 1 3 x 2"), ("--check", "0"), ("--frob",), ("--root",), ("a", "b"), ("--keyring", "none"), ("--ownertrust", "none")):
        yield " ".join(words), (at.status("wot-sync", *words), at.letters() == wanted), (2, True)
    with subprocess.Popen(["flock", at.here / "store.lock", "cat"], stdin=subprocess.PIPE, stdout=subprocess.PIPE) as other:
        other.stdin.write(b"x")
        other.stdin.flush()
        other.stdout.read(1)
        done = at.run("wot-sync")
        yield "another sync", (done.returncode, "another wot-sync is at work" in done.stderr), (2, True)
    (at.here / "plain").mkdir()
    yield "a folder that no sync made", (at.status("wot-sync", "plain"), os.listdir(at.here / "plain")), (2, [])
    (at.here / "plain").rmdir()


def nightly():
    """What changed since the last run, with the reasons; and both failures of gpg, which keep the old answers."""
    me, alice, _, carol = primaries()
    when = r"as of \d{4}-\d\d-\d\d \d\d:\d\d:\d\d UTC; the next check is at \d{4}-\d\d-\d\d \d\d:\d\d:\d\d UTC\n"
    with place() as at:
        def night(*words):
            done = at.run("wot-nightly", "--workers", "2", ".", *words)
            return done.returncode, done.stdout
        status, text = night()
        names = re.findall(r"^\[  new   \] -> (\[.{8}\]) (\w+) <\w+@example.org> [0-9A-F]{40}$", text, re.M)
        yield "the first", (status, sorted(names)), (1, [("[  full  ]", "Alice"), ("[  full  ]", "Bob"), ("[ unknown]", "Carol"), ("[ultimate]", "Me")])
        status, text = night()
        yield "the second", (status, re.fullmatch(when, text) is not None), (0, True)
        yield "its store is compacted", (at.here / "store" / "wot.1").stat().st_size > 24, True
        gpg("--default-key", alice, "--quick-sign-key", carol)
        before, letters = os.readlink(at.here / "store"), (at.here / "letters").read_bytes()
        for option, action in (("--export-ownertrust", "exit 2"), ("--check-sigs", 'REAL "$@" | head -n 9; exit 2')):
            with at.failing_gpg(option, action):
                done = at.run("wot-nightly", ".")
            kept = os.readlink(at.here / "store") == before, (at.here / "letters").read_bytes() == letters, at.letters()["Carol"]
            yield f"{option} fails", (done.returncode, done.stdout, f"gpg {option} failed" in done.stderr, kept), (2, "", True, (True, True, "-"))
        with open("/dev/full", "wb") as full:
            done = subprocess.run(["wot-nightly", "."], stdout=full, stderr=subprocess.PIPE, cwd=at.here, env=at.environment, timeout=120, check=False)
        yield "nobody could be told", (done.returncode, b"No space left" in done.stderr, (at.here / "letters").read_bytes() == letters), (2, True, True)
        status, text = night()
        yield "what got better", (status, re.sub(r"on \d{4}-\d\d-\d\d by", "on by", text).splitlines()[:3]), (1, [
            f"[ unknown] -> [  full  ] Carol <carol@example.org> {carol}",
            "          certified on by Alice <alice@example.org>, fully trusted",
            "            certified on by Me <me@example.org>, ultimately trusted",
        ])
        status, text = night("--", "--options", "pgp 2 3 5 2", "--root", me)
        worse = re.findall(r"^(\[.{8}\] -> \[.{8}\]) (\w+)", text, re.M)
        yield "what got worse", (status, sorted(worse)), (1, [("[  full  ] -> [marginal]", "Bob"), ("[  full  ] -> [marginal]", "Carol")])
        yield "an option that is none", night("--", "--frob")[0], 2
        yield "a help, which syncs nothing", night("--", "--help")[0], 2
        done = at.run("wot-nightly", WOT_STORE="keys/mine")
        yield "the store that is named", (done.returncode, sorted(re.sub(r"\..{10}\Z", "", name) for name in os.listdir(at.here / "keys"))), (
            1, ["mine", "mine.letters", "mine.lock", "mine.sync-made"])


def verify():
    """Whether a file may be installed: by its signature, the signer's letter, and the least letter that is wanted."""
    _, alice, _, carol = primaries()
    with synced() as at:
        file, signature = at.here / "file", at.here / "file.sig"

        def sign(signer, *words):
            file.write_bytes(b"content\n")
            gpg("-u", signer, "--output", str(signature), *(words or ("--detach-sign",)), str(file))

        def verified(*words):
            return at.status("wot-verify", *words)
        sign(alice)
        done = at.run("wot-verify", "file")
        yield "a valid signer", (done.returncode, done.stderr), (0, "")
        yield "gpg's status lines", re.findall(r"^(?:GOODSIG|VALIDSIG|TRUST_).*", done.stdout, re.M)[0], f"GOODSIG {alice[-16:]} Alice <alice@example.org>"
        yield "the names", f"{alice}: [  full  ]\n  [  full  ] Alice <alice@example.org>\nfile: a good signature" in done.stdout, True
        yield "letters", [verified("--want", letter, "file") for letter in "ufmq-"], [1, 0, 0, 0, 0]
        yield "who it is", [verified("--by", f"{who}@EXAMPLE.org", "file", "file.sig") for who in ("alice", "bob")], [0, 1]
        yield "who it is, of any letter", [verified("--want", "-", "--by", f"{who}@example.org", "file") for who in ("alice", "bob", "nobody")], [0, 1, 1]
        yield "no letter", [verified("--want", letter, "file") for letter in ("fm", "", "r")], [2, 2, 2]
        with at.failing_gpg("--verify", 'REAL "$@"; kill -KILL $$'):
            yield "gpg was killed", verified("file"), 2
        yield "no keyring", verified("--keyring", "/nowhere/ring", "file"), 2
        file.write_bytes(b"other\n")
        yield "another content", verified("file"), 1
        sign(alice, "--clearsign")
        yield "a signature of something else", verified("file", "file.sig"), 1
        yield "one that holds its content", (verified("--output", "out", "file.sig"), (at.here / "out").read_bytes()), (0, b"content\n")
        yield "and the verdict alone", verified("file.sig"), 0
        yield from cut_content(at, alice)
        sign(alice, "--clearsign")
        (at.here / "twice").write_bytes(signature.read_bytes() * 2)
        (at.here / "out").unlink()
        yield "more than was signed", (verified("--output", "out", "twice"), (at.here / "out").exists()), (1, False)
        sign(carol)
        yield "a signer who is not valid", (verified("file"), verified("--want", "-", "file"), verified("--want", "-", "--by", "carol@example.org", "file")), (1, 0, 0)
        yield "no signature", (verified("file", "file"), verified("none", "file.sig"), verified("file", "none")), (1, 2, 2)
        yield "no store", verified("--store", "none", "file"), 2
        run(f"delete {carol}\n", where=at.here / "store")
        yield "a key that isn't in the store", (verified("file"), verified("--want", "-", "file")), (1, 1)
        run("date 500\n" + imported(key("A", expires=1000)), where=at.here / "store")
        done = at.run("wot-verify", "--want", "-", "file")
        yield "a store past its next check", (done.returncode, "run wot-sync" in done.stderr), (2, True)


def cut_content(at, signer):
    """What can't be written whole isn't put in place: the size of a file is limited, which gpg meets as a full disk."""
    (at.here / "long").write_bytes(os.urandom(6000))
    gpg("-u", signer, "--output", str(at.here / "long.gpg"), "--sign", str(at.here / "long"))
    (at.here / "out").write_bytes(b"former")
    with at.failing_gpg("--decrypt", 'trap "" XFSZ; exec REAL "$@"'):
        status = at.status("sh", "-c", "ulimit -f 4; exec wot-verify --output out long.gpg")
    yield "a full disk", (status, (at.here / "out").read_bytes()), (2, b"former")
    yield "and with room", (at.status("wot-verify", "--output", "out", "long.gpg"), (at.here / "out").stat().st_size), (0, 6000)


def people():
    """The programs for people and the module over what a sync made of gpg's keyring."""
    _, alice, bob, carol = primaries()
    with synced() as at:
        def said(*words):
            done = at.run(*words)
            return done.stdout, done.returncode
        listed, status = said("wot-list", "bob@example.org")
        shown = rf"as of .*\n\npub   ed25519 \d{{4}}-\d\d-\d\d \[SCE\] \[expires: .*\] \[ownertrust: undefined\]\n      {bob}\nuid           \[  full  \] Bob <bob@example.org>\n"
        yield "list", (re.fullmatch(shown, listed) is not None, status), (True, 0)
        days = r"on \d{4}-\d\d-\d\d by"
        why = f"[  full  ] Bob <bob@example.org> {bob}\n  certified on by Alice <alice@example.org>, fully trusted\n    certified on by Me <me@example.org>, ultimately trusted\n"
        yield "why", re.sub(days, "on by", said("wot-why", bob)[0]), why
        yield "why not", said("wot-why-not", "Carol"), (
            f"[ unknown] Carol <carol@example.org> {carol}\n  missing for full: 0 of 1 full, 0 of 3 marginal\n"
            "  no key certified it, or gpg could check no certification of it\n", 0)
        yield "report", said("wot-report", "--why", "Bob", "page.html"), ("", 0)
        page = Page((at.here / "page.html").read_text(encoding="utf-8"))
        yield "its page", (page.open, page.asked), ([], [])
        yield "the module, as a program", said("wot.py", "alice@example.org"), (f"f {alice}\n", 0)
        with wot.Wot(at.here / "store", PROGRAM) as store:
            yield "to encrypt to", [store.encrypt_to(f"{name}@example.org") for name in ("bob", "alice", "carol")], [[bob], [], []]


def git():
    """Signed commits and tags show the store's letter."""
    _, alice, _, carol = primaries()
    with synced() as at:
        def call(*words, **names):
            settings = ["user.name=A", "user.email=a@example.org", "gpg.program=git-gpg-wot", "gpg.minTrustLevel=fully"]
            options = [word for setting in settings for word in ("-c", setting)]
            return at.run("git", *options, *words, GIT_CONFIG_NOSYSTEM="1", **names)
        call("init", "-q", ".")
        for name, signer in (("alice", alice), ("carol", carol)):
            call("commit", "-q", "--allow-empty", f"-S{signer}", "-m", name)
            call("tag", "-u", signer, "-m", name, name)
        yield "commits", call("log", "--reverse", "--format=%s %G? %GT").stdout, "alice G fully\ncarol U undefined\n"
        yield "tags", [call("verify-tag", name).returncode for name in ("alice", "carol")], [0, 1]
        yield "names", "wot: [  full  ] Alice <alice@example.org>\n" in call("verify-tag", "alice").stderr, True
        done = call("verify-tag", "alice", WOT_STORE="/nowhere")
        yield "no store", (done.returncode, "wot: /nowhere: no store there\n" in done.stderr), (1, True)
        yield "no store, in a log", call("log", "--format=%G?", WOT_STORE="/nowhere").stdout, "E\nE\n"
        run(imported(key("A")) + f"trust {carol} u\n", where=at.here / "store")
        yield "by the store alone", call("log", "-1", "--format=%G? %GT").stdout, "G ultimate\n"
        listing = run(f"sigs {alice}\n", where=at.here / "store").stdout.decode().replace("ok\n", "")
        first = re.search("^uid:.*\n", listing, re.M)[0]
        run("import\n" + listing.replace(first, first + first.replace("Alice", "Alias")) + ".\n", where=at.here / "store")
        yield "the name that has the letter", call("log", "-1", "--skip=1", "--format=%G? %GS").stdout, "G Alias <alice@example.org>\n"
        run(f"delete {alice}\n", where=at.here / "store")
        yield "a key that isn't in the store", call("verify-tag", "alice").returncode, 1


def checked(*checks):
    """Runs checks; what they found that is another than was wanted, and how many things were looked at."""
    count, faults = 0, []
    for check in checks:
        for name, found, wanted in check():
            count += 1
            if found != wanted:
                faults.append(f"contrib: {check.__name__}: {name}: {found!r} in place of {wanted!r}")
    return count, faults


def alone():
    """What needs no keyring of gpg, and what is left out."""
    checks, left = [helps, asked, addresses, told, many, counted_again, reasons, report], []
    for check, tool in ((completion, "bash"), (package, "dpkg-deb")):
        if shutil.which(tool):
            checks.append(check)
        else:
            left.append(f"{check.__name__}: no {tool}")
    return *checked(*checks), left


def over_gpg():
    """What needs a keyring of gpg, and what is left out."""
    checks, left = [sync, verify, people], []
    if shutil.which("git"):
        checks.append(git)
    else:
        left.append("git: no git")
    if KNOWS_CHECK:
        checks.append(nightly)
    else:
        left.append("nightly: the program does not know check and compact")
    with folder() as home:
        os.environ["GNUPGHOME"] = home
        try:
            make_keyring()
            return *checked(*checks), left
        except NoGnuPG as fault:
            return 0, [], [f"what needs a gpg keyring: {fault}"]
        finally:
            if shutil.which("gpgconf"):
                subprocess.run(["gpgconf", "--kill", "all"], capture_output=True, check=False)


if __name__ == "__main__":
    parts = alone(), over_gpg()
    wrong = [fault for _, faults, _ in parts for fault in faults]
    if wrong:
        sys.exit("\n".join(wrong))
    skipped = [f"skipped: {part}" for _, _, left_out in parts for part in left_out]
    print("; ".join([f"contrib: {sum(done for done, _, _ in parts)} ok", *skipped]))
