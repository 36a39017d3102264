"""gpg's words, status lines and listings: what a call of gpg asks for, and its answers with the letters of a store.

A filter takes bytes as gpg writes them and gives those that are told; `gpg-wot` puts it between gpg and who called.
"""
import functools
import re
import time
from typing import NamedTuple

import wot

STATUS = b"[GNUPG:] "
TRUST = {"u": b"TRUST_ULTIMATE", "f": b"TRUST_FULLY", "m": b"TRUST_MARGINAL"}
# what is told of a good signature by a key with one of these letters
ENDED = {"r": b"REVKEYSIG", "e": b"EXPKEYSIG"}
OUTCOMES = (b"NEWSIG", b"GOODSIG", b"BADSIG", b"EXPSIG", b"EXPKEYSIG", b"REVKEYSIG", b"ERRSIG")
# what gpg says of a key by itself, whoever is trusted; the first is the worst
BAD = "reind"
# gpg's words for people, as they are translated
LABELS = {**wot.LABELS, "n": "[  never ]"}
# for a store that another run holds so many seconds are waited
WAIT = 2.0
# of so many keys each is asked for by itself, and of more all are
FEW = 4
LISTING = (
    "list-keys", "list-public-keys", "list-secret-keys", "list-signatures", "list-sigs", "check-signatures", "check-sigs", "fingerprint", "locate-keys",
    "locate-external-keys", "show-keys", "import", "fast-import", "receive-keys", "recv-keys", "fetch-keys", "refresh-keys",
)


class NotUnderstood(Exception):
    """The words are none that gpg takes: it says so itself."""


class Option(NamedTuple):
    code: int
    value: str  # nothing where it has none
    words: list  # the option alone, as it may be given again


class Call:
    """The words of a call, read by gpg's own table of options."""

    def __init__(self, words, table):
        self.by_name, self.takes, self.commands = {}, {}, set()
        for name, code, flags in re.findall(r"^([^:\n]+):(\d+):(\d+):", table, re.M):
            # a heading is no option
            if not int(flags) & 512:
                self.by_name[name] = int(code)
                self.takes[int(code)] = int(flags) & 15
                self.commands |= {int(code)} if int(flags) & 128 else set()
        self.options, self.rest = [], list(words)
        while self.rest and self.rest[0].startswith("-") and self.rest[0] not in ("-", "--"):
            word = self.rest.pop(0)
            if word.startswith("--"):
                self.read_long(word)
            else:
                self.read_letters(word[1:])

    def read_long(self, word):
        name, equals, value = word[2:].partition("=")
        code = self.code_of(name)
        takes = self.takes[code]
        if not takes & 7 or equals:
            self.options.append(Option(code, value if equals else None, [word]))
        elif takes & 8 and (not self.rest or self.rest[0].startswith("-")):
            self.options.append(Option(code, None, [word]))
        else:
            self.options.append(Option(code, self.next_word(), [word]))
            self.options[-1].words.append(self.options[-1].value)

    def read_letters(self, letters):
        for place, letter in enumerate(letters):
            takes = self.takes.get(ord(letter))
            if takes is None:
                raise NotUnderstood
            if takes & 7:
                value = letters[place + 1:] or self.next_word()
                self.options.append(Option(ord(letter), value, ["-" + letter, value]))
                return
            self.options.append(Option(ord(letter), None, ["-" + letter]))

    def next_word(self):
        if not self.rest:
            raise NotUnderstood
        return self.rest.pop(0)

    def code_of(self, name):
        """The option of this name, or the only one that begins so."""
        if name in self.by_name:
            return self.by_name[name]
        codes = {code for known, code in self.by_name.items() if known.startswith(name)}
        if len(codes) != 1:
            raise NotUnderstood
        return codes.pop()

    def all(self, *names):
        codes = {self.by_name[name] for name in names if name in self.by_name}
        return [option for option in self.options if option.code in codes]

    def last(self, *names):
        """The last of these options, or nothing."""
        return next(iter(reversed(self.all(*names))), None)

    def lists_all(self):
        return self.has(*LISTING) and not [word for word in self.rest if word != "--"]

    def senders(self):
        """The addresses of those whom a signature is said to be by."""
        given = [option.value for option in self.all("sender")]
        return [address_in(one) or one for one in given]

    def has(self, *names):
        return bool(self.all(*names))

    def is_guess(self):
        """Whether gpg isn't told what to do, and finds out by its input."""
        return not any(option.code in self.commands for option in self.options)

    def words(self, without=(), more=()):
        """The words with some options left out, and more behind the others, where they win."""
        left_out = [id(option) for option in without]
        return [word for option in self.options if id(option) not in left_out for word in option.words] + [*more, *self.rest]


class Key(NamedTuple):
    """What the store tells of a key."""

    letter: str
    is_disabled: bool
    users: list  # of each the kind, the text, the hash and the letter

    def letter_of(self, kind, text, digest):
        """The letter of a user ID; the worst of those that can't be told apart."""
        found = [user[3] for user in self.users if user[:2] == (kind, text) and (kind == "uid" or not digest or user[2] == digest)]
        return max(found, key=wot.BEST_FIRST.index, default="-")

    def letter_for(self, addresses):
        """The best letter of the user IDs of these addresses, of all where there is none."""
        wanted = {wot.lower(address) for address in addresses}
        letters = [letter for kind, text, _, letter in self.users if kind == "uid" and address_in(text) in wanted]
        return wot.best(letters) if wanted else self.letter

    def letter_of_part(self, name):
        """The best letter of the user IDs that a part of them names, or behind = the whole; where none has it in this form, that of the worst."""
        part = wot.lower(name.lstrip("=*@+"))
        letters = [
            letter for kind, text, _, letter in self.users
            if kind == "uid" and (text == name[1:] if name.startswith("=") else part in wot.lower(text))
        ]
        return wot.best(letters) if letters else max((user[3] for user in self.users), key=wot.BEST_FIRST.index, default="-")


def address_in(text):
    return wot.address_of(wot.User("-", text, False, 0, 0, []))


NOBODY = Key("-", False, [])


class Letters:
    """The store's answers, and why there are none."""

    def __init__(self, tell, few=FEW):
        self.tell, self.few, self.asked, self.keys, self.head = tell, few, 0, {}, None
        self.is_whole, self.is_told = False, True

    def of(self, fingerprint):
        """What the store tells of a key: nothing where it doesn't have it, or can't be asked."""
        if fingerprint not in self.keys and not self.is_whole:
            self.asked += 1
            self.ask(fingerprint if self.asked <= self.few else None)
        return self.keys.get(fingerprint)

    def trust(self):
        """The first line of a listing, as it is of a trust database that is old where the store doesn't tell."""
        if self.head is None and not self.is_whole:
            self.ask()
        return self.head or "tru:o:1:0:0:3:1:5"

    def ask(self, fingerprint=None):
        try:
            with wot.Wot(wot.default_store(), wot.program(), wait=WAIT) as store:
                lines = store.ask("list" if fingerprint is None else f"list {fingerprint}")
            self.read(lines)
            self.is_whole = fingerprint is None
        except wot.NoSuchKey:
            self.keys[fingerprint] = None
        except (wot.WotError, OSError, ValueError) as fault:
            self.give_up()
            self.tell(reason(fault))

    def give_up(self):
        """The store can't be asked: that is told once, and what was answered before is as old as the rest."""
        self.is_whole, self.is_told, self.keys = True, False, {}

    def read(self, lines):
        key = None
        for fields in (line.split(":") for line in lines):
            if fields[0] == "tru":
                self.read_head(fields)
            elif fields[0] == "pub":
                key = Key(fields[1], "D" in fields[11], [])
            elif fields[0] == "fpr":
                self.keys[fields[9]] = key
            elif fields[0] in ("uid", "uat"):
                key.users.append((fields[0], wot.unquoted(fields[9]), fields[7], fields[1]))

    def read_head(self, fields):
        date, next_check, now = int(fields[3]), int(fields[4]), int(time.time())
        self.head = ":".join(fields)
        if now < date or 0 < next_check <= now:
            self.head = ":".join([fields[0], "o", *fields[2:]])
            due = f"the next check is at {wot.moment(next_check)}" if next_check else "nothing expires"
            raise wot.WotError(f"the store tells of {wot.moment(date)}, and {due}: run wot-sync")

    def missing(self, fingerprint):
        """Whether the store was asked and does not have this key."""
        return self.is_told and self.of(fingerprint) is None


def reason(fault):
    """Why the store doesn't answer."""
    return str(fault).removeprefix("wot: ")


class Lines:
    """Bytes that go through line by line; what can be no line that is looked for goes on at once."""

    beginnings = ()

    def __init__(self):
        self.held, self.is_passing = b"", False
        self.waiting = []  # lines that are told with a later one

    def feed(self, data):
        told = []
        *whole, self.held = (self.held + data).split(b"\n")
        for line in whole:
            told += [line] if self.is_passing else self.line(line)
            self.is_passing = False
        if self.held and not self.waiting:
            self.is_passing = self.is_passing or not any(self.held.startswith(one) or one.startswith(self.held) for one in self.beginnings)
        begun = b""
        if self.is_passing:
            begun, self.held = self.held, b""
        return b"".join(line + b"\n" for line in told) + begun

    def finish(self, is_whole):
        """What is left at the end, a line without its end too; nothing waits any more. `is_whole` tells that gpg came to its own end."""
        told = self.line(self.held) if self.held else []
        told += self.released()
        cut = b"" if self.held else b"\n"
        return b"\n".join(told) + cut if told else b""

    def line(self, line):
        raise NotImplementedError

    def released(self):
        """The lines that wait, as they are told where nothing more comes for them."""
        told, self.waiting = self.waiting, []
        return told


class Signatures(Lines):
    """gpg's status lines: what they say of trust is what the store says."""

    beginnings = (STATUS,)

    def __init__(self, letters, senders, is_git):
        super().__init__()
        self.letters, self.senders = letters, senders
        self.is_git = is_git  # which takes a good signature of undefined trust
        # of a signature whose TRUST_ line is still to come; a good one waits until its key is known
        self.key, self.letter = NOBODY, None

    def line(self, line):
        word, _, rest = line[len(STATUS):].partition(b" ") if line.startswith(STATUS) else (b"", b"", b"")
        if word in OUTCOMES or word.startswith((b"DECRYPTION_", b"END_DECRYPTION")):
            told = self.released() + self.owed()
            self.key = NOBODY
            if word not in (b"GOODSIG", b"EXPSIG"):
                return told + [line]
            self.waiting = [line]
            return told
        if word == b"VALIDSIG" and self.waiting:
            return self.valid(line, rest.decode(errors="replace").split(" "))
        if word.startswith(b"TRUST_"):
            return self.trust(word, rest)
        if self.waiting:
            self.waiting.append(line)
            return []
        return [line]

    def valid(self, line, fields):
        """A signature by a key that is known now."""
        fingerprint = fields[9] if len(fields) > 9 else fields[0]
        key = self.letters.of(fingerprint)
        self.tell(fingerprint, key)
        self.key = key or NOBODY
        self.letter = self.key.letter_for(self.senders)
        told = [self.outcome(self.waiting[0]), *self.waiting[1:], line]
        if self.key.letter == "r":
            told.append(STATUS + b"KEYREVOKED")
        self.waiting = []
        return told

    def tell(self, fingerprint, key):
        """The names of a signer, for people."""
        if self.letters.missing(fingerprint):
            self.letters.tell(f"{fingerprint} is not in the store")
        elif key is not None:
            for _, text, _, letter in key.users:
                self.letters.tell(f"{wot.LABELS[letter]} {wot.shown(text)}")
            if key.is_disabled:
                self.letters.tell(f"{fingerprint} is disabled in the store")

    def outcome(self, line):
        """The line of a good signature: as bad as the store says, and with a name that has the letter."""
        word, key_id, *name = line[len(STATUS):].split(b" ", 2)
        if word != b"GOODSIG":
            return line
        if self.is_git and not self.letters.is_told:
            return STATUS + b"ERRSIG " + key_id
        names = [unescaped(one) for one in name]
        if self.key.users and not self.senders and not any(user[1] in names and user[3] == self.letter for user in self.key.users):
            names = [user[1] for user in self.key.users if user[3] == self.letter][:1] or names
            name = [escaped(one) for one in names]
        return STATUS + b" ".join([ENDED.get(self.key.letter, word), key_id, *name])

    def trust(self, word, rest):
        """The store's letter in the place of gpg's; what gpg calls a forgery stays one."""
        address = rest.decode(errors="replace").split(" ")[2:3]
        letter, self.letter = self.letter, None
        if letter is not None and address and not self.senders:
            letter = self.key.letter_for([unescaped(address[0].encode())])
        if word == b"TRUST_NEVER":
            return [STATUS + b" ".join([word, rest])]
        return [] if self.key.letter == "e" else [trust_line(letter, address)]

    def owed(self):
        """The line that gpg doesn't print itself where it was asked to trust always."""
        letter, self.letter = self.letter, None
        return [] if letter is None or self.key.letter == "e" else [trust_line(letter, [])]

    def finish(self, is_whole):
        if not is_whole:
            # of a signature by an unknown key nothing is said
            self.waiting, self.letter = [], None
        return super().finish(is_whole) + b"".join(line + b"\n" for line in self.owed())


def trust_line(letter, address):
    words = [TRUST.get(letter, b"TRUST_UNDEFINED"), b"0", b"wot", *(one.encode() for one in address)]
    return STATUS + b" ".join(words)


def unescaped(text):
    """A text of a status line as it was."""
    raw = re.sub(rb"%([0-9A-Fa-f]{2})", lambda byte: bytes([int(byte[1], 16)]), text)
    return raw.decode(errors="surrogateescape")


def escaped(text):
    raw = text.encode(errors="surrogateescape")
    return re.sub(rb"[\x00-\x1f\x7f%]", lambda byte: b"%%%02X" % byte[0][0], raw)


FINGERPRINT = re.compile(rb" +(?:[^=]*= )?((?:[0-9A-F]{4} ?){5} ?(?:[0-9A-F]{4} ?){5}|[0-9A-F]{40}|[0-9A-F]{64})")
LABELLED = re.compile(rb"(uid +)(\[[^\[\]]*\]) (.*)", re.S)


class Listing(Lines):
    """A listing, by colons or for people: the letters are the store's."""

    beginnings = (b"tru:", b"pub", b"sec", b"sub:", b"ssb:", b"uid", b"uat:")

    def __init__(self, letters):
        super().__init__()
        self.letters = letters
        self.key, self.missing = None, []
        self.is_named = False  # whether the key of a listing for people is known

    def line(self, line):
        kind = line[:4]
        if kind in (b"pub:", b"sec:", b"tru:"):
            # the first line needs the store's, which is there when a key was asked for
            told = [] if self.waiting and self.waiting[-1].startswith(b"tru:") else self.released()
            self.key = None
            self.waiting.append(line)
            return told
        if kind == b"fpr:" and self.waiting and not self.waiting[-1].startswith(b"tru:"):
            self.find("".join(line.decode(errors="replace").split(":")[9:10]))
            return self.released() + [line]
        if kind in (b"uid:", b"uat:", b"sub:", b"ssb:"):
            return self.released() + [self.record(line)]
        if self.waiting:
            self.waiting.append(line)
            return []
        return [self.for_people(line)]

    def find(self, fingerprint):
        self.key = self.letters.of(fingerprint)
        if self.letters.missing(fingerprint):
            self.missing.append(fingerprint)

    def released(self):
        told, self.waiting = [self.record(line) for line in self.waiting], []
        return told

    def record(self, line):
        fields = line.decode(errors="surrogateescape").split(":")
        if fields[0] == "tru":
            return self.letters.trust().encode()
        if len(fields) < 2 or not fields[1]:
            # gpg leaves it out where it was asked to be fast
            return line
        key = self.key or NOBODY
        if fields[0] in ("uid", "uat") and len(fields) < 10:
            letter = "-"
        elif fields[0] in ("uid", "uat"):
            letter = key.letter_of(fields[0], wot.unquoted(fields[9]), fields[7])
        else:
            letter = key.letter
        fields[1] = worse(fields[1][0], letter)
        if fields[0] in ("pub", "sec") and key.is_disabled and len(fields) > 11 and "D" not in fields[11]:
            fields[11] += "D"
        return ":".join(fields).encode(errors="surrogateescape")

    def for_people(self, line):
        if line[:3] in (b"pub", b"sec"):
            self.key, self.is_named = None, False
        elif not self.is_named and (found := FINGERPRINT.fullmatch(line)):
            self.is_named = True
            self.find(re.sub(rb"\s", b"", found[1]).decode())
        elif found := LABELLED.fullmatch(line):
            users = [user for user in (self.key or NOBODY).users if user[0] == "uid" and found[3] in spellings(user[1])]
            letter = max((user[3] for user in users), key=wot.BEST_FIRST.index, default="-")
            return found[1] + label_beside(found[2], letter) + b" " + found[3]
        return line

    def finish(self, is_whole):
        told = super().finish(is_whole)
        if self.missing:
            more = f" and {len(self.missing) - 1} more are" if len(self.missing) > 1 else " is"
            self.letters.tell(f"{self.missing[0]}{more} not in the store")
        return told


def worse(of_gpg, letter):
    """Of two letters what is worse of the key itself, and else the store's."""
    bad = [one for one in (of_gpg, letter) if one in BAD]
    return min(bad, key=BAD.index, default=letter)


def spellings(text):
    """A text as gpg may show it to people, by the letters of the terminal."""
    return {text.encode(errors="surrogateescape")} | ({text.encode("latin-1")} if all(one < "\u0100" for one in text) else set())


@functools.cache
def languages():
    """gpg's words for each letter, in English and in the language that it may speak."""
    # few calls list for people, and it takes a while to load
    import gettext  # pylint: disable=import-outside-toplevel
    translation = gettext.translation("gnupg2", "/usr/share/locale", fallback=True)
    return [{one: said(label).encode() for one, label in LABELS.items()} for said in (str, translation.gettext)]


def label_beside(label, letter):
    """The words for a letter in the language of gpg's label; where that isn't known it may say the worst."""
    for labels in languages():
        for of_gpg, one in labels.items():
            if one == label:
                return labels[worse(of_gpg, letter)]
    return LABELS["-"].encode()
