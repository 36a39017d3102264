"""Keyrings that gpg makes, each step at a date of its own, in the folder that GNUPGHOME names."""
import subprocess

START = 1700000000
DAY = 86400


class NoGnuPG(Exception):
    pass


clock = START


def later(seconds=60):
    """Each thing that gpg makes has a date of its own."""
    global clock
    clock += seconds
    return clock


def gpg(*words, given="", batch=True):
    always = ["--yes", "--quiet", "--no-tty", "--pinentry-mode", "loopback", "--passphrase", "", "--faked-system-time", f"{clock}!"]
    try:
        return subprocess.run(
            ["gpg", *(["--batch"] if batch else []), *always, *words],
            input=given, capture_output=True, text=True, errors="surrogateescape", check=True, timeout=60,
        ).stdout
    except (OSError, subprocess.SubprocessError) as fault:
        raise NoGnuPG(fault) from fault


def records(text):
    return [line.split(":") for line in text.splitlines()]


def primaries():
    """The fingerprints of the keys, in the order of the keyring."""
    found, wanted = [], False
    for fields in records(gpg("--with-colons", "--list-keys")):
        if fields[0] == "pub":
            wanted = True
        elif fields[0] == "fpr" and wanted:
            found.append(fields[9])
            wanted = False
    return found


def letters(listing):
    """The letter of each user ID, by its text."""
    return {fields[9]: fields[1] for fields in records(listing) if fields[0] in ("uid", "uat")}
