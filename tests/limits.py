#!/usr/bin/env python3
"""Takes the built program to each limit and one past it, in sessions over pipes whose input is made while it is read.

Each keyring is moved to the store's other side then, and opened there by several workers: the tally is the same. What takes gigabytes is left out, and named, unless it is called with --all; names of checks choose these alone.
"""
import subprocess
import sys
import time

from reference.program import PROGRAM, folder, run

KEYS, USERS, CERTS, TEXT, TRUSTS, RECORD = 2**18, 2**20, 2**22, 2**28, 2**18, 2**29
KEY_USERS, KEY_CERTS, SCOPE, LINE = 1024, 2**22, 255, 65536
# the bytes of a record beside its texts: the tag and the number of keys, a key, a user ID, a certification, and what it has more where it names a
# fingerprint of 32 bytes, or has a regular expression; an entry with a fingerprint of 32 bytes
HEAD, KEY_BYTES, USER_BYTES, CERT_BYTES, NAMED_BYTES, SCOPE_BYTES, ENTRY_BYTES = 5, 46, 22, 22, 33, 4, 34
USER, CERT = "uid:-" + ":" * 8, f"sig:!:::{2**40:016X}" + ":" * 6 + "10:\n"
NAMED, SCOPED = (CERT.replace("::10:", f"{scope}::10::{2**240:064X}:") for scope in ("", "x"))
LONG = 65000


class Session:
    """The program over pipes."""

    def __init__(self, name):
        self.name, self.store = name, folder()
        self.child = subprocess.Popen([PROGRAM], stdin=subprocess.PIPE, stdout=subprocess.PIPE, cwd=self.store.name)

    def want(self, reply, pieces):
        """Gives a command in pieces, and reads its reply, whose last line must be this one."""
        for piece in gathered(pieces):
            self.child.stdin.write(piece.encode())
        self.child.stdin.flush()
        lines = []
        for line in self.child.stdout:
            lines.append(line)
            if line.startswith((b"ok", b"err")):
                break
        told = lines[-1].decode().rstrip("\n") if lines else "nothing"
        if told != reply:
            sys.exit(f"limits: {self.name}: told {told!r} in place of {reply!r}")
        return b"".join(lines)

    def end(self):
        """Moves the store, closes the session, and opens the store again; the most megabytes of memory that the session held."""
        tally = self.want("ok", ["check\n"])
        self.want("ok", ["compact\n"])
        with open(f"/proc/{self.child.pid}/status", encoding="ascii") as file:
            peak = next(int(line.split()[1]) // 1024 for line in file if line.startswith("VmHWM"))
        self.child.stdin.close()
        self.child.wait()
        again = run(words=["--workers", "4", "check"], where=self.store.name)
        if again.stdout != tally or again.returncode != 0:
            sys.exit(f"limits: {self.name}: opened again, told {again.stdout!r} {again.stderr!r} in place of {tally!r}")
        self.store.cleanup()
        return peak


def gathered(pieces):
    """The pieces in portions of about a megabyte."""
    held, size = [], 0
    for piece in pieces:
        held.append(piece)
        size += len(piece)
        if size > 2**20:
            yield "".join(held)
            held, size = [], 0
    yield "".join(held)


def accepted(keys, certs=0):
    return f"ok keys {keys} kept {certs} passed 0"


def block(keys):
    """The import of some keys, each a text."""
    yield "import\n"
    yield from keys
    yield ".\n"


def numbered(number, texts=(), certs=0, front=0):
    """The key of a number, with user IDs of these texts and so many certifications on each."""
    head = f"pub:-:::{number:016X}:\nfpr" + ":" * 9 + f"{front:08X}{number:032X}:\n"
    return head + "".join(f"{USER}{text}:\n{CERT * certs}" for text in texts)


def numbers(first, end):
    return (numbered(number) for number in range(first, end))


def trust(letter, number):
    return [f"trust {number:040X} {letter}\n"]


def entries(count, digits=40):
    """An ownertrust text."""
    yield "ownertrust\n"
    yield from (f"{number:0{digits}X}:5:\n" for number in range(count))
    yield ".\n"


def lines():
    """A line of 65,536 bytes, in a block and out of one."""
    session, room = Session("lines"), LINE - len(USER) - 1
    session.want("err unknown-command", ["x" * LINE + "\n"])
    session.want("err line-too-long", ["x" * (LINE + 1) + "\n"])
    session.want(accepted(1), block([numbered(1, ["x" * room])]))
    session.want("err line-too-long", block([numbered(1, ["x" * (room + 1)])]))
    session.want(accepted(1), block([numbered(2, ["x" * (room - 1)]).replace("\n", "\r\n")]))
    session.want("err line-too-long", block([numbered(2, ["x" * room]).replace("\n", "\r\n")]))
    return session


def scopes():
    """A regular expression of 255 bytes."""
    session = Session("regular expressions")
    for size, reply in ((SCOPE, accepted(1, 1)), (SCOPE + 1, "err listing 4 LimitReached")):
        session.want(reply, block([numbered(1, "a", 1).replace("::::::10", f":::1 120:{'x' * size}::10")]))
    return session


def key_users():
    """The user IDs of a key."""
    session = Session("user IDs of a key")
    session.want(accepted(1), block([numbered(1, map(str, range(KEY_USERS)))]))
    session.want(f"err listing {KEY_USERS + 3} LimitReached", block([numbered(1, map(str, range(KEY_USERS + 1)))]))
    return session


def keys():
    """The keys of the keyring; a key ID that is taken comes after the limits."""
    session, other = Session("keys"), numbered(0, front=1)
    session.want("err full keys", block(numbers(0, KEYS + 1)))
    session.want(accepted(KEYS), block(numbers(0, KEYS)))
    session.want("err full keys", block([numbered(KEYS)]))
    session.want(accepted(1), block([numbered(KEYS - 1, "a")]))
    session.want("err key-id-taken 0000000000000000", block([other]))
    session.want("err full keys", block([other, numbered(KEYS)]))
    session.want("ok", [f"delete {0:040X}\n"])
    session.want(accepted(1), block([numbered(KEYS)]))
    session.want("err full keys", block([numbered(0)]))
    return session


def users():
    """The user IDs of the keyring; its keys come before them."""
    session, texts, count = Session("user IDs"), [str(n) for n in range(KEY_USERS)], USERS // KEY_USERS
    session.want(accepted(count), block(numbered(number, texts) for number in range(count)))
    session.want("err full users", block([numbered(count, "a")]))
    session.want("err full keys", block([numbered(count, "a"), *numbers(count + 1, KEYS + 1)]))
    session.want(accepted(1), block([numbered(0, texts[1:])]))
    session.want(accepted(1), block([numbered(count, "a")]))
    session.want("err full users", block([numbered(0, texts)]))
    return session


def trusts():
    """The entries of ownertrust."""
    session = Session("ownertrust")
    session.want("err full trusts", entries(TRUSTS + 1))
    session.want(f"ok entries {TRUSTS}", entries(TRUSTS))
    session.want("err full trusts", trust("f", TRUSTS))
    session.want("err full trusts", [f"disable {TRUSTS:040X}\n"])
    session.want("err full trusts", [f"suppose trust {TRUSTS:040X} f\n"])
    session.want("ok changes 0", [f"suppose trust {0:040X} m\n"])
    session.want("ok", trust("m", 0))
    session.want("ok", trust("-", TRUSTS))
    session.want("ok", trust("-", 0))
    session.want("ok", trust("f", TRUSTS))
    session.want("err full trusts", trust("f", 0))
    return session


def made_keys():
    """The keys that `sample` makes, up to the limit of keys."""
    session = Session("made keys")
    for seed, count in ((1, 100000), (2, 100000), (3, KEYS - 200000)):
        session.want(f"ok keys {count}", [f"sample {seed} {count}\n"])
    session.want("err full keys", ["sample 4 1\n"])
    return session


def certified(count):
    """A key with one user ID and so many certifications on it."""
    yield numbered(1, "a")
    yield from (CERT * 4096 for _ in range(count // 4096))
    yield CERT * (count % 4096)


def certs():
    """The certifications on a key, and of the keyring."""
    session = Session("certifications")
    session.want(f"err listing {KEY_CERTS + 4} LimitReached", block(certified(KEY_CERTS + 1)))
    session.want(accepted(1, CERTS), block(certified(KEY_CERTS)))
    session.want("err full certs", block([numbered(2, "a", 1)]))
    session.want(accepted(1), block([numbered(2, "a")]))
    session.want(accepted(1, CERTS - 1), block(certified(CERTS - 1)))
    session.want(accepted(1, 1), block([numbered(2, "a", 1)]))
    session.want("err full certs", block([numbered(3, "a", 1)]))
    return session


def shares(count, size):
    """A size in so many shares, each at most the first."""
    share = -(-size // count)
    return [max(0, min(share, size - share * n)) for n in range(count)]


def texts(size):
    """Different texts of so many bytes in all."""
    return [f"{n:06d}" + "x" * (share - 6) for n, share in enumerate(shares(-(-size // LONG), size))]


def of_text(size, count=16):
    """Keys with so many bytes of text in all."""
    return (numbered(number, texts(share)) for number, share in enumerate(shares(count, size)))


def text():
    """The bytes of texts."""
    session = Session("bytes of texts")
    session.want("err full text", block(of_text(TEXT + 1)))
    session.want(accepted(16), block(of_text(TEXT - 1)))
    session.want("err full text", block([numbered(16, ["ab"])]))
    session.want(accepted(1), block([numbered(16, "a")]))
    session.want("err full text", block([numbered(17, "a")]))
    return session


def grown(size):
    """Four texts each for as many keys as hold so many bytes more than one for each text."""
    count = -(-size // (4 * LONG))
    return [[letter + "x" * part for letter, part in zip("abcd", shares(4, share))] for share in shares(count, size)]


def full(text, scoped):
    """As many keys, user IDs and certifications as there may be, with so many bytes of text; each certification names a fingerprint, and the first have a scope."""
    long = grown(text - scoped - USERS)
    for number in range(KEYS):
        users = long[number] if number < len(long) else "abcd"
        certs = (SCOPED if 16 * number < scoped else NAMED) * 4
        yield numbered(number) + "".join(f"{USER}{user}:\n{certs}" for user in users)


def record():
    """The bytes of a record, which come after the limits of the keyring: only one at these, of certifications with all that they may have, passes them."""
    session = Session("a record")
    plain = HEAD + KEYS * KEY_BYTES + USERS * USER_BYTES + CERTS * (CERT_BYTES + NAMED_BYTES) + TEXT
    scoped = -(-(RECORD + 1 - plain) // (16 * SCOPE_BYTES)) * 16
    over = plain + scoped * SCOPE_BYTES - RECORD
    session.want("err full record", block(full(TEXT - over + 1, scoped)))
    session.want(accepted(KEYS, CERTS), block(full(TEXT - over, scoped)))
    return session


def trusts_and_record():
    """More entries than there may be, in a record that is too long: the entries come first."""
    session = Session("entries of a long record")
    session.want("err full trusts", entries(RECORD // ENTRY_BYTES + 1, 64))
    return session


def all_at_once():
    """A keyring at all limits at once, and the order in which they are named."""
    session, four = Session("all limits at once"), "abcd"
    session.want(f"ok entries {TRUSTS}", entries(TRUSTS))
    session.want(accepted(KEYS, CERTS), block(numbered(number, four, 4) for number in range(KEYS)))
    long = grown(TEXT - 4 * KEYS)
    session.want(accepted(len(long), 16 * len(long)), block(numbered(number, texts, 4) for number, texts in enumerate(long)))
    session.want("err full keys", block([numbered(KEYS, "e", 1)]))
    session.want("err full users", block([numbered(KEYS - 1, "abcde", 4)]))
    session.want("err full certs", block([numbered(KEYS - 1, ["a", "b", "c", "dd"], 4) + CERT]))
    session.want("err full text", block([numbered(KEYS - 1, ["a", "b", "c", "dd"], 4)]))
    session.want("err full trusts", trust("f", KEYS))
    session.want(accepted(1, 16), block([numbered(KEYS - 1, "efgh", 4)]))
    session.want("ok", trust("m", 0))
    return session


SMALL = [lines, scopes, key_users, keys, users, trusts]
if run("sample 7 1\n").stdout != b"err unknown-command\n":
    SMALL.append(made_keys)
LARGE = [certs, text, record, trusts_and_record, all_at_once]
named = [check for check in SMALL + LARGE if check.__name__ in sys.argv]
chosen = SMALL + LARGE if "--all" in sys.argv else named or SMALL
for check in chosen:
    begun = time.monotonic()
    peak = check().end()
    print(f"limits: {check.__name__}: ok in {time.monotonic() - begun:.0f} s and {peak} MB", flush=True)
if len(chosen) == len(SMALL):
    print(f"limits: left out without --all: {' '.join(check.__name__ for check in LARGE)}")
