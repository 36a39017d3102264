#!/usr/bin/env python3
"""Runs the blocks of docs/RECIPES.md and docs/SEQUOIA.md, and the first sync of README.md, as they stand, from top to bottom, each in a fresh folder with a made gpg keyring.

A block of docs/RECIPES.md leaves the shell in the folder that it began in, so that one can be pasted after the other.

It skips where there is no gpg that can make a keyring, and a block that names a file, a tool or a command which is not there.
"""
import os
import pathlib
import re
import shutil
import subprocess
import sys

from reference.program import PROGRAM, folder, run

TOP = pathlib.Path(__file__).resolve().parent.parent
DOCUMENTS = [TOP / "README.md", TOP / "docs" / "RECIPES.md", TOP / "docs" / "SEQUOIA.md"]
BLOCK = re.compile(r"^## (?P<title>[^\n]*)$|^```sh\n(?P<text>.*?)^```$", re.M | re.S)
# what sq-wot tells of some names, and in what part
SEQUOIA = [("alice", 100), ("bob", 100), ("dora", 100), ("mary", 50), ("me", 100), ("mike", 50)]


def authenticated(without):
    parts = {100: "fully authenticated \\(100%\\)", 50: "partially authenticated \\(50%\\)"}
    return r"\A" + "".join(f"{name} <{name}@example.org>: {parts[part]}\\n" for name, part in SEQUOIA if name not in without) + r"\Z"


# what the output of each block under this title must have
SHOWN = {
    "From gpg to a store": [r"^uid:f:[^\n]*:Bob <bob@example.org>:$"],
    "A store of what gpg says": [r"^uid           \[  full  \] Bob <bob@example.org>$"],
    "One store": [r"^uid:f:[^\n]*:Bob <bob@example.org>:\n(.*\n)*ok\ntally:\d+:1:2:0:0:1:0:0:\nok$"],
    "A store by hand": [r"^ok keys 4 kept 2 (.*\n)*uid:f:[^\n]*:Bob <bob@example.org>:$", r"\Aok keys 4 kept 2 .*\n\Z"],
    "Ownertrust back into gpg": [r"\Aok\n\Z"],
    "A nightly run": [
        r"\A(\[  new   \].*\n){4}as of .*\nas of .*; the next check is at .*\n\Z",
        r"\Atally:\d+:1:2:0:0:1:0:0:\nok\nok\n\Z",
        r"\Atally:\d+:1:2:0:0:1:0:0:\nok\n\Z",
    ],
    "May I install this?": [r"\[  full  \] Alice <alice@example.org>\npackage.tar: a good signature by a signer of alice@example.org whose letter is at least f\n\Z"],
    "Signed commits and tags": [r"\AG fully Alice <alice@example.org>\n\Z"],
    "Any program that asks gpg": [
        r"^uid +\[  full  \] Bob <bob@example.org>\n(.*\n)*\[GNUPG:\] TRUST_FULLY 0 wot$",
        r"^uid +\[  full  \] Bob <bob@example.org>$",
        r"\ABob <bob@example.org> True\n\Z",
        r"\ATRUST_FULLY\nTrue invalid recipient\n\Z",
    ],
    "Names and letters in words": [
        r"\[  full  \] Bob <bob@example.org> [0-9A-F]{40}\n"
        r"  certified on [0-9-]{10} by Alice <alice@example.org>, fully trusted\n    certified on [0-9-]{10} by Me <me@example.org>, ultimately trusted\n"
        r"\[ unknown\] Carol <carol@example.org> [0-9A-F]{40}\n  missing for full: 0 of 1 full, 0 of 3 marginal\n"
        r"  no key certified it, or gpg could check no certification of it\n\Z"
    ],
    "A page to show": [r"\A\Z"],
    "One key's letter, for a mail program": [r"\Af [0-9A-F]{40}\n\Z", r"\Af\n\Z", r"\A[0-9A-F]{40}\n\Z"],
    "Asked by a program": [r"\Agreen\nno mark\n\['[0-9A-F]{40}'\]\nno-such-key\n\Z"],
    "A keyring file, as Debian ships them": [r"^uid +\[ultimate\] Debian Archive Automatic Signing Key \(11/bullseye\)"],
    "What if I trusted Bob?": [
        r"\Aif the ownertrust of Bob <bob@example.org>, now undefined, were full:\nno letter would change\n"
        r"if the ownertrust of Alice <alice@example.org>, now full, were none:\n\[  full  \] -> \[  undef \] Bob <bob@example.org> [0-9A-F]{40}\n1 letter would change\n"
        r"by the options pgp 1 3 1 2:\n\[  full  \] -> \[ unknown\] Bob <bob@example.org> [0-9A-F]{40}\n1 letter would change\n\Z"
    ],
    "Whom must I watch?": [
        r"\A\[  full  \] Bob <bob@example.org> [0-9A-F]{40}\n(  \[ unknown\] without the ownertrust of Me <me@example.org>, ultimately trusted\n"
        r"|  \[  undef \] without the ownertrust of Alice <alice@example.org>, fully trusted\n){2}\Z"
    ],
    "What was it last week?": [
        r"\A(ok.*\n){5}from .* UTC, after 3 edits, to .* UTC, after 5 of 5:\n\[  full  \] -> \[  undef \] Bob <bob@example.org> [0-9A-F]{40}\n1 letter changed\n"
        r"tru:(.*\n)*uid:f:[^\n]*:Bob <bob@example.org>:\n(.*\n)*ok\n\Z"
    ],
    "Which edit made Bob invalid?": [
        r"\A\[  undef \] Bob <bob@example.org> [0-9A-F]{40}\n  \[  full  \] -> \[  undef \] by edit 5 of 5, at .* UTC\n"
        r"    the ownertrust went from full to never: Alice <alice@example.org>\nwhy:f:(.*\n)*ok\n\Z"
    ],
    "What expires next, and what falls with it": [
        r"\A(at .* UTC:\n\[  full  \] -> \[ expired\] Bob <bob@example.org> [0-9A-F]{40}\n1 letter would change\n){2}\Z",
        r"\A[1-9][0-9]*\nchange:[0-9A-F]{16}:1:f:e:\nok changes 1\n\Z",
    ],
    "Two keyrings compared": [r"^< f [0-9A-F]{40} Bob <bob@example.org>$"],
    "A new store from an old one": [r"\Aok entries \d+\nok keys 4 .*\nok\n\Z"],
    "Completion, and a Debian package": [r"\Awot_1.0_\w+.deb\n(.* ./usr/bin/.*\n)*.* ./usr/bin/wot-sync -> ../share/wot/wot-sync\n"],
    "The same small keyring": [
        r"\A\Z",
        r"\Aalice .*: \[  full  \]\nbob .*: \[  full  \]\ndora .*: \[marginal\]\nerin .*: \[  full  \]\nfrank .*: \[ unknown\]\n"
        r"mary .*: \[  full  \]\nme .*: \[ultimate\]\nmike .*: \[  full  \]\n\Z",
    ],
    "Both answers": [authenticated({"bob"}), authenticated(set())],
}
NEEDS_CHECK = re.compile(r"wot-nightly|wot(-in)? check|wot compact|nightly/")
KNOWS_CHECK = run("check\n").stdout != b"err unknown-command\n"


class NoGnuPG(Exception):
    pass


def gpg(*words, given=""):
    always = ["gpg", "--batch", "--yes", "--quiet", "--no-tty", "--pinentry-mode", "loopback", "--passphrase", ""]
    try:
        return subprocess.run([*always, *words], input=given, capture_output=True, text=True, check=True, timeout=60).stdout
    except (OSError, subprocess.SubprocessError) as fault:
        raise NoGnuPG(fault) from fault


def make_keyring():
    """My key certifies Alice's, and hers Bob's, which expires and can encrypt; nobody certifies Carol's."""
    people = {"Me": "never", "Alice": "never", "Bob": "1y", "Carol": "never"}
    for name, expires in people.items():
        gpg("--quick-generate-key", f"{name} <{name.lower()}@example.org>", "ed25519", "default", expires)
    keys = re.findall(r"^pub:.*\nfpr:{9}([0-9A-F]{40}):", gpg("--with-colons", "--list-keys"), re.M)
    me, alice, bob, carol = keys
    gpg("--quick-add-key", bob, "cv25519", "encr", "never")
    gpg("--default-key", me, "--quick-sign-key", alice)
    gpg("--default-key", alice, "--quick-sign-key", bob)
    gpg("--import-ownertrust", given=f"{me}:6:\n{alice}:5:\n{bob}:2:\n{carol}:2:\n")


def blocks(document):
    """The blocks of shell under the titles above, each with its title and its number there."""
    title, number = "", 0
    for found in BLOCK.finditer(document.read_text(encoding="utf-8")):
        if found["title"]:
            title, number = found["title"], 0
        elif document.name == "RECIPES.md" or title in SHOWN:
            yield title, number, found["text"]
            number += 1


def lacking(text):
    """What a block needs and the machine or the program lacks, or nothing."""
    files = [file for file in re.findall(r"=(/\S+)", text) if not os.path.exists(file)]
    tools = [tool for tool in ("git", "sq-wot", "dpkg-deb") if re.search(rf"^ *{tool} ", text, re.M) and not shutil.which(tool)]
    modules = [module for module in ("gpg", "gnupg") if re.search(rf"^import {module}$", text, re.M) and not has_module(module)]
    return next(iter([*files, *tools, *modules, *(["check and compact"] if NEEDS_CHECK.search(text) and not KNOWS_CHECK else [])]), None)


def has_module(module):
    try:
        # elsewhere, as a script of the tests has the name of one
        return subprocess.run(["/usr/bin/python3", "-c", f"import {module}"], cwd=os.sep, capture_output=True, check=False).returncode == 0
    except OSError:
        return False


def run_all(document, here, tools):
    """Runs each block of a document in one folder; what is at fault, how many ran, and which were skipped."""
    path = os.pathsep.join([tools, str(TOP / "contrib"), os.environ["PATH"]])
    environment = {**os.environ, "PATH": path, "PYTHONDONTWRITEBYTECODE": "1"}
    faults, ran, skipped = [], 0, []
    for title, number, text in blocks(document):
        missing = lacking(text)
        if missing:
            skipped.append(f"{title}: no {missing}")
            continue
        stays = f'[ . -ef "{here}" ]\n' if document.name == "RECIPES.md" else ""
        done = subprocess.run(["sh", "-eu"], input=text + stays, capture_output=True, text=True, cwd=here, env=environment, timeout=120, check=False)
        ran += 1
        if done.returncode or not re.search(SHOWN[title][number], done.stdout, re.M):
            faults.append(f"recipes: {title}, block {number + 1}: status {done.returncode}\n{done.stdout}{done.stderr}")
    return faults, ran, skipped


if __name__ == "__main__":
    at_fault, count, left_out = [], 0, []
    with folder() as program, folder() as home:
        os.symlink(PROGRAM, os.path.join(program, "wot"))
        os.environ["GNUPGHOME"] = home
        try:
            make_keyring()
        except NoGnuPG as no:
            print(f"recipes: skipped: {no}")
            sys.exit(0)
        for path in DOCUMENTS:
            with folder() as place:
                wrong, run_here, left = run_all(path, place, program)
            at_fault, count, left_out = at_fault + wrong, count + run_here, left_out + left
        subprocess.run(["gpgconf", "--kill", "all"], capture_output=True, check=False)
    if at_fault:
        sys.exit("\n".join(at_fault))
    print("; ".join([f"recipes: {count} blocks ran", *(f"skipped: {block}" for block in left_out)]))
