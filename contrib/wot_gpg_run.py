"""A run of gpg whose marks of trust are the store's: what `gpg-wot` and `git-gpg-wot` do. A module is kept compiled, and a program is not."""
import contextlib
import functools
import os
import re
import resource
import select
import selectors
import signal
import sys
from typing import NamedTuple

import wot
from wot_gpg import FEW, LISTING, WAIT, Call, Letters, Listing, NotUnderstood, Option, Signatures, reason

NAME = os.path.basename(sys.argv[0])
HERE = os.path.dirname(os.path.realpath(__file__))
# what tells only of itself
ABOUT = ("help", "version", "warranty", "dump-options", "dump-option-table")
VERIFYING = ("verify", "verify-files", "decrypt", "decrypt-files")
ENCRYPTING = ("encrypt", "encrypt-files")
# whose output is no listing of keys, though --with-colons may be given
WRITING = (
    *VERIFYING, "sign", "clear-sign", "detach-sign", "encrypt", "encrypt-files", "symmetric", "store", "export", "export-secret-keys", "export-secret-subkeys",
    "export-ssh-key", "dearmor", "enarmor", "print-md", "print-mds", "gen-random", "gen-prime", "search-keys", "list-packets", "server",
)
# which keys gpg has and what they are named by hangs on these
OF_THE_KEYRING = (
    "homedir", "options", "no-options", "keyring", "primary-keyring", "secret-keyring", "no-default-keyring", "no-keyring", "group", "ungroup", "no-groups",
    "charset", "display-charset", "utf8-strings", "no-utf8-strings", "faked-system-time", "allow-non-selfsigned-uid", "no-permission-warning", "trustdb-name",
    "lock-once", "lock-multiple", "lock-never", "no-autostart",
)
FINGERPRINT = re.compile("(0x)?[0-9A-Fa-f]{40}")
FORWARDED = (signal.SIGHUP, signal.SIGINT, signal.SIGQUIT, signal.SIGTERM, signal.SIGUSR1, signal.SIGUSR2)


class Recipient(NamedTuple):
    option: Option
    name: str  # as it was given, or of the group that was given
    words: list  # the option with the key that is meant, or nothing where there is none who is valid
    is_disabled: bool  # in gpg


class Recipients:
    """To whom a call encrypts: the keys that are meant, and whether the store calls them valid."""

    def __init__(self, gpg, call, tell):
        self.gpg, self.call, self.tell = gpg, call, tell
        self.options = call.all("recipient", "hidden-recipient")
        self.letters = Letters(tell)

    def found(self):
        groups = self.groups() if any(FINGERPRINT.fullmatch(option.value) is None for option in self.options) else {}
        named = [(option, name) for option in self.options for name in groups.get(wot.lower(option.value), [option.value])]
        addresses = {name: address_named(name) for _, name in named}
        meant = self.to_encrypt_to({address for address in addresses.values() if address})
        keys = {name: self.key_of(meant.get(addresses[name], name)) for _, name in named if addresses[name] is None or addresses[name] in meant}
        return [self.recipient(option, name, keys.get(name), addresses[name]) for option, name in named]

    def recipient(self, option, name, key, address):
        if key is None:
            return Recipient(option, name, [], False)
        told = self.letters.of(key.fingerprint)
        if self.letters.missing(key.fingerprint):
            self.tell(f"{key.fingerprint} is not in the store")
        letter = "-" if told is None else told.letter if address or is_of_key(name) else told.letter_of_part(name)
        if told is None or told.is_disabled or letter not in wot.VALID:
            if told is not None:
                self.tell(f"{wot.shown(name)}: {'disabled in the store' if told.is_disabled else wot.LABELS[letter]} {key.fingerprint}")
            return Recipient(option, name, [], False)
        return Recipient(option, name, [option.words[0].partition("=")[0], key.meant_by(name)], key.is_disabled)

    def groups(self):
        """The names of each group, as gpg is told of them by the call or in its own options."""
        lines = [line.split(":") for line in self.ask_gpg("--list-config", "group")]
        return {wot.lower(wot.unquoted(fields[2])): wot.unquoted(fields[3]).split(";") for fields in lines if fields[:2] == ["cfg", "group"]}

    def to_encrypt_to(self, addresses):
        """The key that the store names first for each address."""
        try:
            with contextlib.ExitStack() as stack:
                store = stack.enter_context(wot.Wot(wot.default_store(), wot.program(), wait=WAIT)) if addresses else None
                found = {address: store.encrypt_to(address) for address in addresses}
            for address in (address for address, keys in found.items() if not keys):
                self.tell(f"{address}: no key of this address can be encrypted to and is valid")
            return {address: keys[0] for address, keys in found.items() if keys}
        except (wot.WotError, OSError, ValueError) as fault:
            # nor is it asked, and waited for, once more
            self.letters.give_up()
            self.tell(reason(fault))
            return {}

    def key_of(self, name):
        """The first key of this name in gpg's keyring that can encrypt, or the first."""
        keys = []
        for fields in (line.split(":") for line in self.ask_gpg("--list-keys", "--", name)):
            if fields[0] == "pub":
                keys.append(GpgKey([], fields[1], fields[11]))
            elif fields[0] == "fpr" and keys:
                keys[-1].fingerprints.append(fields[9])
        usable = [key for key in keys if "E" in key.uses and key.letter[:1] not in ("r", "e")]
        return next(iter(usable + keys), None)

    def ask_gpg(self, *words):
        of_the_keyring = [word for option in self.call.all(*OF_THE_KEYRING) for word in option.words]
        # its own trust isn't asked for, and would take time
        always = ["--batch", "--no-tty", "--quiet", "--with-colons", "--trust-model", "always"]
        return told_by([self.gpg, *of_the_keyring, *always, *words]).decode(errors="surrogateescape").splitlines()


class GpgKey(NamedTuple):
    """A key as gpg lists it."""

    fingerprints: list  # the primary one first
    letter: str
    uses: str

    @property
    def fingerprint(self):
        return self.fingerprints[0]

    @property
    def is_disabled(self):
        return "D" in self.uses

    def meant_by(self, name):
        """The key, or the subkey that a name with ! means."""
        digits = name.upper().removeprefix("0X")
        if not digits.endswith("!"):
            return self.fingerprint
        return next((one + "!" for one in self.fingerprints if one.endswith(digits[:-1])), self.fingerprint)


def address_named(name):
    """The address that a recipient is named by, or nothing."""
    found = re.fullmatch(r"<([^<>\s@]+@[^<>\s@]+)>|([^<>\s@*=+#&]+@[^<>\s@]+)", name)
    return found and (found[1] or found[2])


def is_of_key(name):
    """Whether a name is a key ID or a fingerprint, and not a part of a user ID."""
    return re.fullmatch("(0x)?([0-9A-Fa-f]{8}|[0-9A-Fa-f]{16}|[0-9A-Fa-f]{32}|[0-9A-Fa-f]{40}|[0-9A-Fa-f]{64})!?|&.*", name) is not None


class Run:
    """A run of gpg: descriptors whose lines go through here, signals that are handed on, and how it ended."""

    def __init__(self, gpg, words, filters, logger):
        self.gpg, self.words, self.logger = gpg, words, logger
        self.filters = filters  # by descriptor those that its bytes go through, one after the other
        self.pipes = {descriptor: os.pipe() for descriptor in filters}
        self.child = None
        self.selector = selectors.DefaultSelector()

    def start(self):
        import ctypes  # pylint: disable=import-outside-toplevel
        self.watch_signals()
        parent, libc = os.getpid(), ctypes.CDLL(None)
        self.child = os.fork()
        if self.child == 0:
            try:
                # where this program is killed gpg is killed with it, as if it were gpg
                libc.prctl(1, signal.SIGKILL)
                if os.getppid() == parent:
                    self.become_gpg()
            finally:
                os._exit(2)

    def become_gpg(self):
        signal.set_wakeup_fd(-1)
        for descriptor, (_, end) in self.pipes.items():
            os.dup2(end, descriptor)
        execute(self.gpg, self.words)

    def watch_signals(self):
        """Signals come as bytes of a pipe."""
        reader, writer = os.pipe()
        os.set_blocking(reader, False)
        os.set_blocking(writer, False)
        signal.set_wakeup_fd(writer, warn_on_full_buffer=False)
        for one in (signal.SIGCHLD, *FORWARDED):
            if one == signal.SIGCHLD or signal.getsignal(one) != signal.SIG_IGN:
                signal.signal(one, lambda *_: None)
        self.selector.register(reader, selectors.EVENT_READ)

    def to_its_end(self):
        """Until gpg has ended; how it did, as wait tells it."""
        self.start()
        for descriptor, (reader, writer) in self.pipes.items():
            os.close(writer)
            self.selector.register(reader, selectors.EVENT_READ, descriptor)
        ended = None
        while ended is None:
            for key, _ in self.selector.select():
                if key.data is None:
                    ended = self.signalled(os.read(key.fd, 512), ended)
                else:
                    self.pass_on(key.fd, key.data)
        self.drain()
        is_whole = os.WIFEXITED(ended)
        for descriptor, filters in self.filters.items():
            left = b""
            for one in filters:
                left = one.feed(left) + one.finish(is_whole)
            self.tell(descriptor, left)
        self.logger.flush()
        return ended

    def signalled(self, numbers, ended):
        for number in numbers:
            if number == signal.SIGCHLD:
                child, status = os.waitpid(self.child, os.WNOHANG) if ended is None else (0, None)
                ended = status if child else ended
            elif ended is None:
                os.kill(self.child, number)
        return ended

    def pass_on(self, reader, descriptor):
        """Hands on what gpg has written; whether there was something."""
        data = os.read(reader, 65536)
        told = functools.reduce(lambda given, one: one.feed(given), self.filters[descriptor], data)
        if not data or not self.tell(descriptor, told):
            # where nobody reads any more gpg's next write fails, as it would have
            self.selector.unregister(reader)
            os.close(reader)
            return False
        return True

    def tell(self, descriptor, data):
        """Whether it could be told."""
        while data:
            try:
                data = data[os.write(descriptor, data):]
            except BlockingIOError:
                # the caller's descriptor doesn't wait, and gpg would have
                select.select([], [descriptor], [])
            except OSError:
                return False
        return True

    def drain(self):
        """What gpg had written when it ended; its own children may keep the pipe open."""
        for key in list(self.selector.get_map().values()):
            if key.data is not None:
                os.set_blocking(key.fd, False)
                with contextlib.suppress(BlockingIOError):
                    while self.pass_on(key.fd, key.data):
                        pass


class Logger:
    """Where gpg writes its messages for people, and what is said there when it has ended: before, it could come within a line of gpg's."""

    def __init__(self, call):
        self.call, self.descriptor, self.lines = call, None, []

    def tell(self, text):
        self.lines.append(f"wot: {wot.shown(text)}\n".encode(errors="backslashreplace"))

    def flush(self):
        lines, self.lines = self.lines, []
        # who can't be told has none of gpg's messages either
        with contextlib.suppress(OSError):
            if lines and self.descriptor is None:
                self.descriptor = self.opened()
            for line in lines:
                os.write(self.descriptor, line)

    def opened(self):
        option = self.call.last("logger-fd", "log-file", "logger-file")
        if option in self.call.all("logger-fd"):
            return int(option.value) if option.value.isdigit() else 2
        # which gpg does in batch alone
        if option is None or not self.call.has("batch") or option.value.startswith(("socket:", "tcp:")):
            return 2
        return os.open(option.value, os.O_WRONLY | os.O_APPEND | os.O_CREAT, 0o666)


def is_open(descriptor):
    try:
        os.fstat(descriptor)
    except OSError:
        return False
    return True


def told_by(words):
    """What a program prints that is given no input; its messages go nowhere. (By a call of the system, since `subprocess` takes a while to load.)"""
    reader, writer = os.pipe()
    nowhere = os.open(os.devnull, os.O_RDWR)
    streams = [(os.POSIX_SPAWN_DUP2, nowhere, 0), (os.POSIX_SPAWN_DUP2, writer, 1), (os.POSIX_SPAWN_DUP2, nowhere, 2)]
    try:
        child = os.posix_spawn(words[0], words, os.environ, file_actions=streams, setsigdef=(signal.SIGPIPE, signal.SIGXFSZ))
    except OSError:
        os.close(reader)
        raise
    finally:
        os.close(writer)
        os.close(nowhere)
    with open(reader, "rb") as pipe:
        told = pipe.read()
    os.waitpid(child, 0)
    return told


def execute(gpg, words):
    """Becomes gpg."""
    # which Python had set aside
    for one in (signal.SIGPIPE, signal.SIGXFSZ):
        signal.signal(one, signal.SIG_DFL)
    os.execv(gpg, [gpg, *words])


def end_as(status):
    """Ends as a child did."""
    if os.WIFSIGNALED(status):
        number = os.WTERMSIG(status)
        resource.setrlimit(resource.RLIMIT_CORE, (0, 0))
        if number not in (signal.SIGKILL, signal.SIGSTOP):
            signal.signal(number, signal.SIG_DFL)
        os.kill(os.getpid(), number)
    return os.WEXITSTATUS(status)


def is_this(path):
    """Whether it is one of the two names of this program."""
    return any(os.path.samefile(path, os.path.join(HERE, name)) for name in ("gpg-wot", "git-gpg-wot"))


def next_gpg():
    """The gpg that is run: the one that is named, or the next on the path that isn't this program."""
    if os.environ.get("GPG_WOT_GPG"):
        return os.environ["GPG_WOT_GPG"]
    for folder in os.get_exec_path():
        path = os.path.join(folder, "gpg")
        if os.access(path, os.X_OK) and not os.path.isdir(path) and not is_this(path):
            return path
    raise wot.WotError("no gpg on the path")


def table_of(gpg):
    """What gpg says of its options."""
    table = told_by([gpg, "--dump-option-table"])
    if not table:
        # what it is asked for isn't known then, and its own letters could be in the answer
        raise wot.WotError(f"{gpg} tells of no options by --dump-option-table")
    return table.decode(errors="replace")


def status_of(call):
    """The option and the descriptor of gpg's status lines; where none is asked for, one that leads nowhere."""
    option = call.last("status-fd", "status-file")
    if option is None:
        return [], os.open(os.devnull, os.O_WRONLY)
    if option in call.all("status-fd"):
        if re.fullmatch("[0-9]+", option.value) is None:
            # gpg would take a part of it
            raise wot.WotError(f"{option.value}: no descriptor")
        return [], int(option.value)
    return [option], os.open(option.value, os.O_WRONLY | os.O_CREAT | os.O_TRUNC, 0o600)


def is_always(call):
    """Whether the caller itself asked for every key to be taken."""
    option = call.last("trust-model", "always-trust")
    return option is not None and (option.value is None or wot.lower(option.value) == "always")


def run_encrypting(gpg, call, logger):
    """The recipients are the store's: gpg is told to take those whom it calls valid, and refuses the first of the others itself."""
    recipients = Recipients(gpg, call, logger.tell)
    found = recipients.found()
    logger.flush()
    refused = next((one for one in found if not one.words), None)
    if found and refused is None:
        disabled = next((one for one in found if one.is_disabled), None)
        if disabled is None:
            words = [word for one in found for word in one.words]
            execute(gpg, call.words(recipients.options, ["--trust-model", "always", *words]))
        # gpg itself refuses it, and says why
        execute(gpg, call.words(recipients.options, ["--trust-model", "pgp", "--batch", *disabled.words]))
    # few calls refuse, and it takes a while to load
    import tempfile  # pylint: disable=import-outside-toplevel
    with tempfile.TemporaryDirectory(prefix="gpg-wot") as folder:
        # in a trust database that knows nobody each key is one that gpg refuses in batch, and asks about elsewhere
        nobody = ["--trust-model", "direct", "--trustdb-name", os.path.join(folder, "trustdb.gpg")]
        told_by([gpg, "--quiet", "--batch", *nobody, "--import-ownertrust"])
        one = [] if refused is None else ["--batch", refused.option.words[0].partition("=")[0], refused.name]
        status = Run(gpg, call.words(recipients.options, [*nobody, *one]), {}, logger).to_its_end()
    return end_as(status)


def run(gpg, call):
    logger = Logger(call)
    if call.has(*ABOUT):
        execute(gpg, sys.argv[1:])
    if call.has(*ENCRYPTING) and not is_always(call):
        return run_encrypting(gpg, call, logger)
    filters, left_out, more = {}, [], []
    letters = Letters(logger.tell, 0 if call.lists_all() else FEW)
    if call.has(*LISTING) or call.has("with-colons") and not call.has(*WRITING):
        filters[1] = [Listing(letters)]
    if call.has(*VERIFYING) or call.is_guess():
        left_out, descriptor = status_of(call)
        more = ["--status-fd", str(descriptor), "--verify-options", "no-show-uid-validity"]
        filters.setdefault(descriptor, []).append(Signatures(letters, call.senders(), NAME == "git-gpg-wot"))
    if not filters or not all(is_open(descriptor) for descriptor in filters):
        execute(gpg, sys.argv[1:])
    return end_as(Run(gpg, call.words(left_out, more), filters, logger).to_its_end())


def answer(about):
    """Runs gpg with the words of this call; `about` is what is told of the program itself."""
    words = sys.argv[1:]
    if words == ["--help"]:
        print(f"usage: {NAME} [WORD OF gpg]...\n\n{about}", end="")
        return 0
    gpg = next_gpg()
    try:
        call = Call(words, table_of(gpg))
    except NotUnderstood:
        execute(gpg, words)
    return run(gpg, call)


def open_streams():
    """Puts nothing in the place of standard streams that are closed, so that no pipe of this program takes it; gpg gets them closed."""
    for stream in range(3):
        if not is_open(stream):
            os.open(os.devnull, os.O_RDWR)
    sys.stdout = sys.stdout or open(os.devnull, "w", encoding="utf-8")
    sys.stderr = sys.stderr or open(os.devnull, "w", encoding="utf-8")


def main(about):
    open_streams()
    wot.end_with(NAME, functools.partial(answer, about))
