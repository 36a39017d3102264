#!/usr/bin/env python3
"""Gives what the built program prints to existing readers: ownertrust to gpg, the listings to the parser of python-gnupg.

It skips what the machine lacks, and says so.
"""
import re
import subprocess
import sys
import tempfile

from reference.program import by, fingerprint, imported, key, key_id, run, trust

GIVEN = (
    trust("A", "u") + trust("B", "m") + f"disable {fingerprint('C')}\n"
    + imported(key("A"), key("B", "A", by("C", trusts="1 60"), text="Col\\x3aon <b@example.org>"), key("C", "A", "B"))
)


def ownertrust():
    told = run(GIVEN + "export\n").stdout.decode()
    wanted = "".join(re.findall(r"^[0-9A-F]{40}:\d+:\n", told, re.M))
    with tempfile.TemporaryDirectory(prefix="wot", ignore_cleanup_errors=True) as home:
        try:
            gpg = ["gpg", "--homedir", home, "--batch", "--quiet"]
            subprocess.run([*gpg, "--import-ownertrust"], input=wanted, text=True, capture_output=True, check=True, timeout=60)
            told = subprocess.run([*gpg, "--export-ownertrust"], text=True, capture_output=True, check=True, timeout=60).stdout
        except (OSError, subprocess.SubprocessError) as fault:
            return f"skipped: {fault}"
    told = sorted(line for line in told.splitlines() if not line.startswith("#"))
    # gpg keeps no entry of unknown trust
    wanted = sorted(line for line in wanted.splitlines() if not line.endswith(":128:"))
    told = [line for line in told if not line.endswith(":128:")]
    return "ok" if told == wanted else f"FAULT: {told} in place of {wanted}"


def listing():
    try:
        import gnupg
    except ImportError:
        return "skipped: no python-gnupg"
    if not hasattr(gnupg, "ListKeys"):
        return "skipped: no python-gnupg with a parser"
    sigs = run(GIVEN + "sigs\n").stdout.decode()
    reader = gnupg.ListKeys(type("Owner", (), {"encoding": "utf-8", "decode_errors": "strict", "on_data": None})())
    for line in sigs.split("tru:", 1)[1].splitlines()[1:]:
        fields = line.split(":")
        method = getattr(reader, fields[0], None)
        if method:
            method(fields)
    found = {k["keyid"]: (k["trust"], k["uids"], len(k.get("sigs", []))) for k in reader}
    wanted = {
        key_id("A"): ("u", ["A <a@example.org>"], 0),
        key_id("B"): ("f", ["Col:on <b@example.org>"], 2),
        key_id("C"): ("f", ["C <c@example.org>"], 2),
    }
    return "ok" if found == wanted else f"FAULT: {found} in place of {wanted}"


def reading_back():
    """What `sigs` prints is a listing of the same keyring."""
    sigs = run(GIVEN + "sigs\n").stdout.decode()
    printed = "tru:" + sigs.split("tru:", 1)[1][: -len("ok\n")]
    again = run(GIVEN.split("import")[0] + "import\n" + printed + ".\nsigs\n").stdout.decode()
    return "ok" if again.split("tru:", 1)[1] == sigs.split("tru:", 1)[1] else f"FAULT: {again} in place of {sigs}"


faults = False
for check in (ownertrust, listing, reading_back):
    said = check()
    faults = faults or said.startswith("FAULT")
    print(f"readers: {check.__name__}: {said}")
sys.exit(1 if faults else 0)
