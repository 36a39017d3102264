#!/usr/bin/env python3
"""Asks `wot` over a pipe, one command after the other, and reads its replies.

    with wot.Wot("/home/me/keys") as store:
        # a letter came from bob@example.org; who signed it is the last word of gpg's line VALIDSIG
        if store.letter_of(signer, "bob@example.org") in wot.VALID:
            ...
        for fingerprint in store.encrypt_to("alice@example.org"):
            ...

`letter_of` answers whether a mark may be shown: how valid this address is on the key that signed. `letter` and `letters` don't: they ask of
any key with the address, also of one that did not sign.
Answers are as of the store's date and keyring. Past the next check they may be others now: then these four raise `Stale`, unless they are
asked with `stale=True`; and also where the store is older than `max_age` days, if that is given.
A run holds its store, so leave the block as soon as you have your answers; who asks by this module meanwhile waits for some seconds, for
every run of `wot`. Where the files of a store may not be written, a private copy of them is asked.
What goes wrong is a `WotError`: a command that is refused a `Refused`, with a class for each reason, the end of the program an `Ended`.
As a program, `wot.py ADDRESS` prints the letter and the fingerprint of each key that has a user ID of this address.
"""
import contextlib
import fcntl
import io
import os
import re
import sys
import time
import weakref
from typing import NamedTuple

BEST_FIRST = "ufmq-er"
VALID = "uf"
# the letters of validity as gpg words them in `--list-keys`, in one width
LABELS = {"u": "[ultimate]", "f": "[  full  ]", "m": "[marginal]", "q": "[  undef ]", "-": "[ unknown]", "r": "[ revoked]", "e": "[ expired]"}
OWNERTRUST = {"u": "ultimate", "f": "full", "m": "marginal", "n": "never", "q": "undefined", "-": "unknown"}
TAKES_BLOCK = ("import", "ownertrust")
CHANGES_FILES = (*TAKES_BLOCK, "trust", "disable", "enable", "delete", "date", "options", "sample", "compact")
FILES = ("wot.0", "wot.1")
DAY = 86400
BEYOND_ASCII = bytes(128) + b"x" * 128
# no store has as many edits
MOST_EDITS = 2**64 - 1
# how long the files of a store must have rested before answers are kept: some file systems count in whole seconds
RESTED = 2_000_000_000


class WotError(Exception):
    """Anything that goes wrong here."""


class NoStore(WotError):
    """The folder has no store; `wot` would make an empty one there."""


class Denied(WotError):
    """The store may not be read, or it may not be changed by this user."""


class Stale(WotError):
    """The store is past its next check, or older than it may be: what it tells may be otherwise now."""


class Ended(WotError):
    """The program has ended, or can't be run; `status` is its exit status, and the text is the reason, the first line on standard error."""

    def __init__(self, status, text):
        super().__init__(text or f"wot ended with status {status}")
        self.status = status


class Held(Ended):
    """Another run had the store, and did not let go of it in time."""

    def __init__(self):
        super().__init__(5, "another run of wot holds the store")


class Refused(WotError):
    """A command was refused, and changed nothing; `name` is the reason, and `details` are the words behind it."""

    name = ""

    def __init__(self, details):
        super().__init__(" ".join([self.name, *details]))
        self.details = details


class LineTooLong(Refused):
    name = "line-too-long"


class UnknownCommand(Refused):
    name = "unknown-command"


class BadArgument(Refused):
    name = "bad-argument"


class UnendedBlock(Refused):
    name = "unended-block"


class BadListing(Refused):
    name = "listing"


class BadOwnertrust(Refused):
    name = "ownertrust"


class NoSuchKey(Refused):
    name = "no-such-key"


class NoSuchUser(Refused):
    name = "no-such-user"


class Full(Refused):
    name = "full"


class KeyIdTaken(Refused):
    name = "key-id-taken"


class JournalFull(Refused):
    name = "journal-full"


class NoSuchTime(Refused):
    """There were not so many edits since the base; `count` is how many there were."""

    name = "no-such-time"

    @property
    def count(self):
        return int(self.details[0])


REFUSALS = {kind.name: kind for kind in Refused.__subclasses__()}


class Certification(NamedTuple):
    issuer: str  # a key ID
    made: int
    expires: int  # 0 is never
    depth: int
    amount: int
    scope: str
    kind: int  # 0x10 to 0x13, or 0x30 of a revocation
    fingerprint: str = ""  # of the issuer, where the certification names it


class User(NamedTuple):
    letter: str
    text: str
    is_attribute: bool
    made: int
    expires: int
    certifications: list  # empty where they were not asked for

    @property
    def shown(self):
        """Its text as it may be shown; gpg gives an attribute the number of its parts and their bytes."""
        parts = re.fullmatch(r"(\d+) (\d+)", self.text) if self.is_attribute else None
        if parts is None:
            return shown(self.text)
        return f"[{'photo' if parts[1] == '1' else f'{parts[1]} photos'}, {parts[2]} bytes]"


class Key(NamedTuple):
    letter: str
    fingerprint: str
    key_id: str
    bits: int
    algorithm: int
    made: int
    expires: int
    trust: str  # the letter of its ownertrust
    capabilities: str
    users: list

    @property
    def is_disabled(self):
        return "D" in self.capabilities

    @property
    def can_encrypt(self):
        """Whether it has a subkey for encryption that could be used when gpg made the listing, and is not disabled."""
        return "E" in self.capabilities and not self.is_disabled

    def letter_of(self, address):
        """The best letter of its user IDs of this address, or nothing where it has none."""
        letters = [user.letter for user in self.users if address_of(user) == lower(address)]
        return best(letters) if letters else None


class Keyring(NamedTuple):
    """What the store knows, with its date and its options; min-cert-level is printed by no command."""

    is_pgp: bool
    date: int
    next_check: int  # the next date at which anything expires, or 0
    marginals: int
    completes: int
    depth: int
    keys: list

    def holds_at(self, date):
        """Whether its letters are those of this date too: none changes before the next check."""
        return self.date <= date and (self.next_check == 0 or date < self.next_check)

    def staleness(self, max_age=None):
        """Why its letters may be others now, or nothing: it is past the next check, or older than so many days."""
        now = int(time.time())
        if not self.holds_at(now):
            return f"the store tells of {moment(self.date)}, and {next_check(self)}: run wot-sync"
        if max_age is not None and now - self.date > max_age * DAY:
            return f"the store tells of {moment(self.date)}, which is more than {max_age} days ago: run wot-sync"
        return None

    def require_current(self, max_age=None):
        reason = self.staleness(max_age)
        if reason is not None:
            raise Stale(reason)


class Row(NamedTuple):
    level: int
    trust: str
    left: int
    scope: str
    via: str = None  # the key ID of who delegated to it, empty where nobody did; None of a program that doesn't tell


class Why(NamedTuple):
    letter: str
    key_id: str
    place: int
    counts: tuple  # of the certifiers that are introducers: ultimate, full, marginal, other
    rows: dict  # by key ID: all introducers on which the letter rests
    by: dict  # by key ID: the trust of those that certify the user ID itself


class Change(NamedTuple):
    """A user ID whose letter an edit would change."""

    key_id: str
    place: int
    old: str
    new: str


class Loss(NamedTuple):
    """A fingerprint without whose ownertrust a letter would be further back, and that letter."""

    fingerprint: str
    letter: str


class Listing:
    """The reply to `list` as it came, of which a key becomes a value where it is asked for: all of many keys take much more time and memory."""

    def __init__(self, raw):
        self.raw = raw
        self.begin = raw.find(b"\npub:") + 1 or len(raw)
        self.head = parsed_keyring(text_lines(raw[:self.begin]))

    def __iter__(self):
        return self.keys_at(found.start() for found in re.finditer(rb"^pub:", self.raw, re.M))

    def keys_at(self, places):
        """The keys in whose records these places lie, which rise, each once."""
        end = 0
        for place in places:
            if place >= end:
                start = self.raw.rfind(b"\npub:", 0, place + 4) + 1
                end = self.raw.find(b"\npub:", place) + 1 or len(self.raw)
                yield parsed_keys(text_lines(self.raw[start:end]))[0]

    def by_key_id(self, key_id):
        """The key of a key ID, or nothing: they come in rising order."""
        low, high, wanted = self.begin, len(self.raw), key_id.encode()
        while low < high:
            start = self.raw.rfind(b"\npub:", 0, (low + high) // 2 + 4) + 1
            found = self.raw[start:start + 100].split(b":")[4]
            if found == wanted:
                return next(self.keys_at([start]))
            if found < wanted:
                low = self.raw.find(b"\npub:", start) + 1 or high
            else:
                high = start
        return None

    def maybe(self, wanted):
        """The keys among which are all that `matching` finds by this name."""
        digits = digits_of(wanted)
        if digits is None:
            return self.keys_at(self.lines_with(wanted.casefold()))
        key = self.by_key_id(digits[:16] if len(digits) == 64 else digits[-16:])
        return iter([] if key is None else [key])

    def lines_with(self, folded):
        """Where the lines of user IDs begin whose text, without its case, has this part."""
        starts = set()
        if folded.isascii():
            needle, lowered = quoted(folded).encode(), self.raw.lower()
            place = lowered.find(needle, self.begin)
            while 0 <= place < len(lowered):
                starts.add(lowered.rfind(b"\n", 0, place) + 1)
                place = lowered.find(needle, lowered.find(b"\n", place) + 1 or len(lowered))
        # beyond ASCII a letter can have a case of another length, as the German sharp s has
        beyond = b"" if self.raw.isascii() else self.raw.translate(BEYOND_ASCII)
        place = beyond.find(b"x")
        while place >= 0:
            start, end = self.raw.rfind(b"\n", 0, place) + 1, self.raw.find(b"\n", place)
            if start not in starts and folded in unquoted(text_lines(self.raw[start:end])[0]).casefold():
                starts.add(start)
            place = beyond.find(b"x", end)
        return sorted(start for start in starts if self.raw[start:start + 1] == b"u")

    def is_repeated(self, text):
        """Whether more than one user ID has this text."""
        needle = b":" + quoted(text).encode(errors="surrogateescape") + b":\n"
        place = self.raw.find(needle)
        return place >= 0 and self.raw.find(needle, place + 1) >= 0


class Wot:
    """A session on the store of a folder, which must have one, unless `new` is set; it waits so many seconds for other runs.

    Of a store whose files may not be written a copy is asked, and no command that changes it is sent.
    """

    def __init__(self, folder, program="wot", new=False, wait=5.0, max_age=None):
        if not new and not has_store(folder):
            raise NoStore(f"{folder}: no store there")
        # a path is meant from here, and not from the store's folder
        self.program = os.path.abspath(program) if os.sep in program else program
        self.folder, self.max_age, self.has_answered = folder, max_age, False
        self.fault, self.faults = None, 0
        self.until = time.monotonic() + wait
        ending = contextlib.ExitStack()
        self.leave = weakref.finalize(self, ending.close)
        ending.callback(close_turn, take_turn(folder, self.until))
        self.is_copy = has_store(folder) and not may_write(folder)
        try:
            self.where = ending.enter_context(private_copy(folder, self.until)) if self.is_copy else folder
            self.child = self.begun()
        except BaseException:
            self.leave()
            raise

    def begun(self):
        # who looks an answer up that was kept, as for each commit of a log, is spared the time to load it
        import subprocess  # pylint: disable=import-outside-toplevel
        pipe = subprocess.PIPE
        try:
            return subprocess.Popen([self.program], stdin=pipe, stdout=pipe, stderr=pipe, cwd=self.where)
        except OSError as fault:
            raise Ended(None, f"{self.program}: {fault.strerror}") from fault

    def __enter__(self):
        return self

    def __exit__(self, *_):
        self.close()

    def close(self):
        """Ends the session and waits until the program has let go of its store; the exit status."""
        status = self.end_child()
        self.leave()
        return status

    def end_child(self):
        for stream in (self.child.stdin, self.child.stdout, self.child.stderr):
            try:
                stream.close()
            except BrokenPipeError:
                pass
        return self.child.wait()

    def letter_of(self, fingerprint, address, stale=False):
        """How valid an address is on the key of this fingerprint, as of who signed a letter that comes from there.

        It is `-` too where the store has no such key, where the key has no user ID of the address, and where it is disabled.
        """
        try:
            found = self.listing(fingerprint)
        except NoSuchKey:
            # it may be in one of today
            if not stale:
                self.require_current(self.listing().head)
            return "-"
        self.require_current(found.head, stale)
        key = next(iter(found))
        return "-" if key.is_disabled else key.letter_of(address) or "-"

    def letters(self, address, stale=False):
        """The best letter of the user IDs of this address, for the fingerprint of each key that has one; the key may be disabled."""
        return {key.fingerprint: key.letter_of(address) for key in self.keys_of(address, stale)}

    def letter(self, address, stale=False):
        """The best letter that this address has on any key: `-` too where no key has it. It tells nothing of who signed: see `letter_of`."""
        return best(self.letters(address, stale).values())

    def encrypt_to(self, address, stale=False):
        """The fingerprints of the keys to which a letter to this address may be encrypted, the one to take first.

        That is the one with the best letter for the address; of these the one that was made latest; of these the least fingerprint.
        """
        usable = [key for key in self.keys_of(address, stale) if key.can_encrypt and key.letter_of(address) in VALID]
        usable.sort(key=lambda key: (BEST_FIRST.index(key.letter_of(address)), -key.made, key.fingerprint))
        return [key.fingerprint for key in usable]

    def keys_of(self, address, stale):
        """The keys with a user ID of this address."""
        found = self.listing()
        self.require_current(found.head, stale)
        return [key for key in found.maybe(address) if key.letter_of(address) is not None]

    def require_current(self, keyring, stale=False):
        if not stale:
            keyring.require_current(self.max_age)

    def listing(self, fingerprint=None, certifications=False):
        """The keys of the store, or one of them, as they were printed."""
        command = "sigs" if certifications else "list"
        return Listing(self.raw(command if fingerprint is None else f"{command} {fingerprint}"))

    def keyring(self, fingerprint=None, certifications=False):
        """The keys of the store, or one of them, with their letters, all as values."""
        found = self.listing(fingerprint, certifications)
        return found.head._replace(keys=list(found))

    def why(self, fingerprint, place=1):
        return parsed_why(self.ask(f"why {fingerprint} {place}"))

    def suppose(self, edit):
        """The letters that an edit would change, in rising order of key ID and place: `trust`, `date` or `options` with their words. It isn't made."""
        return [Change(key_id, int(place), old, new) for _, key_id, place, old, new, _ in (line.split(":") for line in self.ask(f"suppose {edit}"))]

    def critical(self, fingerprint, place=1):
        """On whose ownertrust the letter of a user ID hangs: each without whom it would be further back."""
        return [Loss(*line.split(":")[1:3]) for line in self.ask(f"critical {fingerprint} {place}")]

    def count(self):
        """How many edits were accepted since the base, which the last `compact` wrote, or an empty keyring where none did."""
        try:
            self.raw(f"at {MOST_EDITS} list")
        except NoSuchTime as refusal:
            return refusal.count
        return MOST_EDITS

    def at(self, count):
        """The state after the first so many edits since the base, of which `listing`, `keyring` and `why` ask."""
        return Earlier(self, count)

    def ask(self, command, block=None):
        """The lines of the reply before its last one; `block` has the lines of a block, for `import` and `ownertrust`."""
        return self.replied(command, block)[:-1]

    def replied(self, command, block=None):
        """The lines of the reply with its last one, which begins with `ok`."""
        return text_lines(self.raw(command, block))

    def raw(self, command, block=None):
        """The reply as it came, which ends with an `ok` line."""
        lines = command_lines(command, block)
        if self.is_copy and command.split()[0] in CHANGES_FILES:
            raise Denied(f"{self.folder}: its files may not be written: permission denied")
        sent = "".join(line + "\n" for line in lines).encode(errors="surrogateescape")
        reply = self.exchanged(sent)
        while reply is None:
            self.begin_again()
            reply = self.exchanged(sent)
        self.has_answered = True
        last = reply[last_line(reply):].decode(errors="surrogateescape").rstrip("\n")
        if last.startswith("err"):
            raise refusal(last)
        return reply

    def exchanged(self, sent):
        """The reply to what is sent, or nothing where the program ended as it does that finds its store held."""
        try:
            self.child.stdin.write(sent)
            self.child.stdin.flush()
        except (BrokenPipeError, ValueError):
            return self.ended()
        reply = bytearray()
        while True:
            part = self.child.stdout.read1(1 << 16)
            reply += part
            if not part:
                return self.ended()
            if reply.endswith(b"\n") and reply.startswith((b"ok", b"err"), last_line(reply)):
                return reply

    def ended(self):
        """Tells how the program ended; what it wrote to standard error is read once. Nothing, where it may begin again."""
        text = "" if self.child.stderr.closed else self.child.stderr.read().decode(errors="replace").partition("\n")[0]
        end = Ended(self.end_child(), text)
        if end.status == 5 and not self.has_answered:
            self.fault = end
            return None
        self.leave()
        raise end

    def begin_again(self):
        """Has a new run where the one before could not begin: as soon as no other holds the store, or once more where none does."""
        held = is_held(self.where)
        self.faults = 1 if held else self.faults + 1
        while held and time.monotonic() < self.until:
            time.sleep(0.05)
            held = is_held(self.where)
        if held or self.faults > 3:
            self.leave()
            raise Held() if held else self.fault
        self.child = self.begun()


class Earlier:
    """The state after the first so many edits since the base of an open store; it is read again for each question, and nothing is kept of it."""

    def __init__(self, store, count):
        self.store, self.count = store, count

    def listing(self, fingerprint=None):
        """The keys, or one of them, as they were printed; without certifications, which no command prints of an earlier state."""
        return Listing(self.store.raw(f"at {self.count} list" if fingerprint is None else f"at {self.count} list {fingerprint}"))

    def keyring(self, fingerprint=None):
        """The keys, or one of them, with their letters, all as values."""
        found = self.listing(fingerprint)
        return found.head._replace(keys=list(found))

    def why(self, fingerprint, place=1):
        return parsed_why(self.store.ask(f"at {self.count} why {fingerprint} {place}"))


def last_line(reply):
    """Where the last line begins."""
    return reply.rfind(b"\n", 0, -1) + 1


def text_lines(raw):
    return raw.decode(errors="surrogateescape").removesuffix("\n").split("\n")


def take_turn(folder, until):
    """A lock on the folder, which no run of `wot` looks at. Who doesn't get it in that time goes on without, and is told that the store is held."""
    try:
        turn = os.open(folder, os.O_RDONLY)
    except OSError:
        return None
    lock_until(turn, fcntl.LOCK_EX, until)
    return turn


def lock_until(file, kind, until):
    """Whether a lock was had in that time; where files have no locks that is so too."""
    while True:
        try:
            fcntl.flock(file, kind | fcntl.LOCK_NB)
            return True
        except OSError as fault:
            if not isinstance(fault, BlockingIOError):
                return True
            if time.monotonic() >= until:
                return False
        time.sleep(0.05)


def close_turn(turn):
    if turn is not None:
        os.close(turn)


def is_held(folder):
    """Whether a run holds the store: it locks this file, as `wot` does, for no longer than it takes to see."""
    try:
        file = os.open(os.path.join(folder, FILES[0]), os.O_RDONLY)
    except OSError:
        return False
    try:
        return not lock_until(file, fcntl.LOCK_SH, 0)
    finally:
        os.close(file)


def has_store(folder):
    """Whether a folder has a store; that it may not be looked at is no answer."""
    for name in FILES:
        try:
            os.stat(os.path.join(folder, name))
            return True
        except PermissionError as fault:
            raise Denied(f"{folder}: permission denied") from fault
        except OSError:
            pass
    return False


def may_write(folder):
    """Whether a run may write both files, and make the one that isn't there: it does so for a question too."""
    paths = [os.path.join(folder, name) for name in FILES]
    return all(os.access(path if os.path.exists(path) else folder, os.W_OK) for path in paths)


@contextlib.contextmanager
def private_copy(folder, until):
    """A folder of one's own with the files of a store, copied while no run is at work on them."""
    import shutil  # pylint: disable=import-outside-toplevel
    import tempfile  # pylint: disable=import-outside-toplevel
    with tempfile.TemporaryDirectory(prefix="wot") as where, contextlib.ExitStack() as opened:
        try:
            files = [opened.enter_context(open(os.path.join(folder, name), "rb")) for name in FILES if os.path.exists(os.path.join(folder, name))]
        except PermissionError as fault:
            raise Denied(f"{fault.filename}: permission denied") from fault
        if not lock_until(files[0].fileno(), fcntl.LOCK_SH, until):
            raise Held()
        for file in files:
            with open(os.path.join(where, os.path.basename(file.name)), "wb") as copy:
                shutil.copyfileobj(file, copy)
        opened.close()
        yield where


def command_lines(command, block):
    """The lines of a command with its block. What would get no reply, or more than one, is an error of the caller."""
    words = command.split()
    if not words or words[0].startswith("#") or "\n" in command:
        raise ValueError(f"not one command: {command!r}")
    if (block is not None) != (words[0] in TAKES_BLOCK):
        raise ValueError(f"{words[0]}: {'a block is missing' if block is None else 'takes no block'}")
    if block is None:
        return [command]
    lines = [line[:-1] if line.endswith("\n") else line for line in block]
    if any("\n" in line or line.rstrip("\r") == "." for line in lines):
        raise ValueError("a line of the block would end it")
    return [command, *lines, "."]


def refusal(line):
    name, *details = line.split(" ")[1:]
    kind = REFUSALS.get(name)
    return Refused([name, *details]) if kind is None else kind(details)


def default_store():
    """The folder of the store where none is named: $WOT_STORE, or `wot/store` in the user's folder for data."""
    data = os.environ.get("XDG_DATA_HOME") or os.path.join(os.path.expanduser("~"), ".local", "share")
    return os.environ.get("WOT_STORE") or os.path.join(data, "wot", "store")


def program():
    """The program that is asked: $WOT, or `wot` on the path."""
    return os.environ.get("WOT") or "wot"


def look_up(folder, fingerprint, program="wot", wait=5.0):  # pylint: disable=redefined-outer-name
    """A keyring of the key of this fingerprint alone, or of no key; from the answers that were kept, where the store is the same since.

    For who is called once for each signature, as a program that git calls. They are kept in the user's folder for caches.
    """
    kept, now = Kept(folder, program), time.time_ns()
    found = kept.answer(fingerprint)
    if found is None:
        with Wot(folder, program, wait=wait) as store:
            try:
                found = store.raw(f"list {fingerprint}")
            except NoSuchKey:
                # the head tells of what date the answer is, and is printed of a key that is there, or of all
                found = store.raw("list")
                found = found[:found.find(b"\n") + 1]
        kept.add(fingerprint, found, now)
    listing = Listing(found)
    return listing.head._replace(keys=list(listing))


class Kept:
    """Answers by fingerprint, in a file that begins with what tells whether the program and the store are still the same.

    That is its first line, `answers` and a word each for the program and both files; then comes for each answer a line `key FINGERPRINT`, and
    what `list FINGERPRINT` printed without its last line, or its first line alone where the store has no such key.
    """

    def __init__(self, folder, program):  # pylint: disable=redefined-outer-name
        home = os.environ.get("XDG_CACHE_HOME") or os.path.join(os.path.expanduser("~"), ".cache")
        name = re.sub("[^A-Za-z0-9]", "_", os.path.abspath(folder))[-200:]
        self.path = os.path.join(home, "wot", f"answers{name}")
        self.folder, self.program = folder, program
        self.stamp, self.changed = self.stamped()

    def stamped(self):
        """A line that tells the files and the program apart, and when a file was changed last."""
        folders = [""] if os.sep in self.program else os.environ.get("PATH", os.defpath).split(os.pathsep)
        program = next((path for path in (os.path.join(one, self.program) for one in folders) if os.path.isfile(path)), self.program)  # pylint: disable=redefined-outer-name
        found = []
        for path in (program, *(os.path.join(self.folder, name) for name in FILES)):
            try:
                found.append(os.stat(path))
            except OSError:
                return None, 0
        # as stat -L -c %d:%i:%s:%.9Y prints them
        text = " ".join(f"{one.st_dev}:{one.st_ino}:{one.st_size}:{one.st_mtime_ns // 10**9}.{one.st_mtime_ns % 10**9:09d}" for one in found)
        return f"answers {text}\n".encode(), max(one.st_mtime_ns for one in found[1:])

    def read(self):
        """What was kept, if it is of this store and was written by this user."""
        try:
            with open(self.path, "rb") as file:
                kept = file.read() if os.fstat(file.fileno()).st_uid == os.geteuid() else b""
        except OSError:
            return b""
        return kept if self.stamp is not None and kept.startswith(self.stamp) else b""

    def answer(self, fingerprint):
        before, mark, behind = self.read().partition(b"\nkey " + fingerprint.encode() + b"\n")
        return behind.partition(b"\nkey ")[0] + b"\n" if before and mark else None

    def add(self, fingerprint, answer, asked):
        """Keeps an answer, where the store is what it was before it was asked; that it can't be kept is no fault."""
        if self.stamp is None or asked - self.changed < RESTED or self.stamped()[0] != self.stamp:
            return
        lines = answer.removesuffix(b"\n").removesuffix(b"\nok")
        try:
            os.makedirs(os.path.dirname(self.path), mode=0o700, exist_ok=True)
            kept = (self.read() or self.stamp).removesuffix(b"\n")
            new = f"{self.path}.{os.getpid()}"
            with open(os.open(new, os.O_WRONLY | os.O_CREAT | os.O_TRUNC, 0o600), "wb") as file:
                file.write(kept + b"\nkey " + fingerprint.encode() + b"\n" + lines + b"\n")
            os.replace(new, self.path)
        except OSError:
            pass


def day(seconds):
    return time.strftime("%Y-%m-%d", time.gmtime(seconds))


def moment(seconds):
    return time.strftime("%Y-%m-%d %H:%M:%S UTC", time.gmtime(seconds))


def next_check(keyring):
    return f"the next check is at {moment(keyring.next_check)}" if keyring.next_check else "nothing expires"


def unquoted(field):
    """A text field as it was before it was printed; a byte that is no part of a letter is a lone surrogate."""
    if "\\" not in field:
        return field
    raw = re.sub(rb"\\x([0-9a-f]{2})", lambda byte: bytes([int(byte[1], 16)]), field.encode(errors="surrogateescape"))
    return raw.decode(errors="surrogateescape")


def quoted(text):
    """A text as the program prints it: on one line, and without a colon."""
    return "".join(f"\\x{ord(c):02x}" if c < " " or c in "\x7f:\\" else c for c in text)


def shown(text):
    """A text as it may be shown: what is no printable letter, and could change the screen, as an escape."""
    return text if text.isprintable() else "".join(c if c.isprintable() else c.encode("unicode_escape").decode() for c in text)


def lower(address):
    """In lower case as far as ASCII goes: elsewhere letters that differ could become one."""
    return re.sub("[A-Z]", lambda letter: letter[0].lower(), address)


def address_of(user):
    """The address of a user ID in lower case, or nothing: what stands between its only brackets, at its end, or a bare address."""
    found = re.fullmatch(r"[^<>]*<([^<>\s@]+@[^<>\s@]+)>|([^<>\s@]+@[^<>\s@]+)", user.text)
    return None if user.is_attribute or found is None else lower(found[1] or found[2])


def digits_of(name):
    """The digits of a fingerprint or of a key ID of 16 digits, as people write them, or nothing."""
    digits = re.sub(r"\s|^0x", "", name).upper()
    return digits if re.fullmatch("[0-9A-F]{16}|[0-9A-F]{40}|[0-9A-F]{64}", digits) else None


def matching(keys, wanted):
    """The user IDs, each a key and a place, of a fingerprint, a key ID, an address, or a part of a text."""
    digits, keys = digits_of(wanted), list(keys)
    users = [(key, place) for key in keys for place in range(1, len(key.users) + 1)]
    if digits is not None:
        return [(key, place) for key, place in users if digits in (key.key_id, key.fingerprint)]
    exact = [(key, place) for key, place in users if address_of(key.users[place - 1]) == lower(wanted)]
    return exact or [(key, place) for key, place in users if wanted.casefold() in key.users[place - 1].text.casefold()]


def best(letters):
    return min(letters, key=BEST_FIRST.index, default="-")


def parsed_keyring(lines):
    """The reply to `list` or `sigs`."""
    model, date, next_date, marginals, completes, depth = (int(field) for field in lines[0].split(":")[2:8])
    return Keyring(model == 1, date, next_date, marginals, completes, depth, parsed_keys(lines[1:]))


def parsed_keys(lines):
    keys = []
    for fields in (line.split(":") for line in lines):
        if fields[0] == "pub":
            numbers = fields[2], fields[3], fields[5], fields[6] or "0"
            bits, algorithm, made, expires = map(int, numbers)
            keys.append(Key(fields[1], "", fields[4], bits, algorithm, made, expires, fields[8], fields[11], []))
        elif fields[0] == "fpr":
            keys[-1] = keys[-1]._replace(fingerprint=fields[9])
        elif fields[0] in ("uid", "uat"):
            keys[-1].users.append(User(fields[1], unquoted(fields[9]), fields[0] == "uat", int(fields[5]), int(fields[6] or "0"), []))
        elif fields[0] in ("sig", "rev"):
            depth, amount = map(int, (fields[7] or "0 0").split())
            given = fields[4], int(fields[5]), int(fields[6] or "0"), depth, amount, unquoted(fields[8]), int(fields[10][:2], 16)
            keys[-1].users[-1].certifications.append(Certification(*given, *fields[12:13]))
    return keys


def parsed_why(lines):
    """The reply to `why`."""
    head, rows, by = [], {}, {}
    for fields in (line.split(":") for line in lines):
        if fields[0] == "why":
            head = fields
        elif fields[0] == "row":
            rows[fields[1]] = Row(int(fields[2]), fields[3], int(fields[4]), unquoted(fields[5]), *fields[6:7])
        elif fields[0] == "by":
            by[fields[1]] = fields[2]
    return Why(head[1], head[2], int(head[3]), tuple(map(int, head[4:8])), rows, by)


def arguments(description, epilog):
    """The options that the programs which ask a store share."""
    import argparse  # pylint: disable=import-outside-toplevel
    parser = argparse.ArgumentParser(description=description, epilog=epilog)
    parser.add_argument("--store", metavar="FOLDER", default=default_store(), help="the folder of the store (%(default)s)")
    parser.add_argument("--max-age", metavar="DAYS", type=int, help="as if the store were past its next check where its date is more than so many days ago")
    return parser


def end_with(name, main):  # pylint: disable=redefined-outer-name
    """Ends a program with the status that its main returns, or with 2 where it fails; the fault goes to standard error."""
    open_streams()
    try:
        # what the terminal has no letter for is an escape, and no fault
        sys.stdout.reconfigure(errors="backslashreplace")
        status = run_whole(main)
    except BrokenPipeError:
        # who read the output has gone
        status = 2
    except KeyboardInterrupt:
        # as a shell tells of a program that was interrupted
        status = 130
    except (WotError, OSError) as fault:
        tell(f"{name}: {words_of(fault)}")
        status = 2
    except Exception:  # pylint: disable=broad-except
        # an error of this program must not look like an answer
        import traceback  # pylint: disable=import-outside-toplevel
        tell(traceback.format_exc().rstrip("\n"))
        status = 2
    let_go()
    sys.exit(status)


def open_streams():
    """Puts something in the place of standard streams that are closed, so that no file which is opened gets their numbers; writing to that output fails.

    Standard output has a buffer even where Python was told that it should have none: without one what is written in part would count as written.
    """
    for number in range(3):
        try:
            os.fstat(number)
        except OSError:
            os.open(os.devnull, os.O_RDWR if number == 2 else os.O_RDONLY)
    sys.stdin = sys.stdin or open(0, encoding="utf-8", closefd=False)
    sys.stderr = sys.stderr or open(2, "w", encoding="utf-8", closefd=False)
    if sys.stdout is None or isinstance(sys.stdout.buffer, io.RawIOBase):
        sys.stdout = open(1, "w", encoding=sys.stdout.encoding if sys.stdout else "utf-8", closefd=False)


def run_whole(main):  # pylint: disable=redefined-outer-name
    """The status of a main, when all that it printed is written."""
    try:
        status = main()
    except SystemExit as end:
        # of a help, or a wrong usage
        status = end.code
    with writing():
        sys.stdout.flush()
    return status


@contextlib.contextmanager
def writing():
    """What can't be written here was meant for standard output."""
    try:
        yield
    except BrokenPipeError:
        raise
    except OSError as fault:
        raise WotError(f"standard output: {fault.strerror}") from fault


def words_of(fault):
    """What is said of a fault; the system's without its number."""
    if not isinstance(fault, OSError):
        return str(fault)
    words = fault.strerror or str(fault)
    return words if fault.filename is None else f"{fault.filename}: {words}"


def tell(text):
    """A line on standard error; who can't be told is shown the status alone."""
    with contextlib.suppress(OSError):
        print(text, file=sys.stderr)


def let_go():
    """Leaves nothing that Python could fail to write when it ends, as it would then end with a status of its own."""
    for stream in (sys.stdout, sys.stderr):
        try:
            stream.flush()
        except OSError:
            os.dup2(os.open(os.devnull, os.O_WRONLY), stream.fileno())


def main():
    parser = arguments(
        "Prints the letter and the fingerprint of each key that has a user ID of an address.",
        "Exit status: 0 if there is such a key, or that of --signer is one; 1 if not, 2 if the store can't be asked, or is past its next check.")
    parser.add_argument("--signer", metavar="FINGERPRINT", help="of this key alone, as of who signed a letter: - where it has no such user ID, or is disabled")
    parser.add_argument("--stale", action="store_true", help="also where the store is past its next check")
    parser.add_argument("address")
    given = parser.parse_args()
    signer = given.signer and digits_of(given.signer)
    if given.signer is not None and len(signer or "") < 40:
        parser.error(f"--signer {shown(given.signer)}: a fingerprint has 40 or 64 hexadecimal digits")
    with Wot(given.store, program(), max_age=given.max_age) as store:
        if signer is None:
            letters = store.letters(given.address, given.stale)
            some = bool(letters)
        else:
            letters = {signer: store.letter_of(signer, given.address, given.stale)}
            some = has_address(store, signer, given.address)
    for fingerprint, letter in letters.items():
        print(letter, fingerprint)
    return 0 if some else 1


def has_address(store, fingerprint, address):
    """Whether the store has a key of this fingerprint with a user ID of an address."""
    try:
        return next(iter(store.listing(fingerprint))).letter_of(address) is not None
    except NoSuchKey:
        return False


if __name__ == "__main__":
    end_with("wot.py", main)
