"""How the program and its floors are timed: in turn, the best or the middle of several, and the rows of the tables."""
import contextlib
import mmap
import os
import shutil
import statistics
import subprocess
import sys
import tempfile
import time

HERE = os.path.dirname(os.path.abspath(__file__))
ROUNDS = 3
TURNS = 9
# bytes of memory, more than any run that is timed holds
ROOM = 1 << 28


class Failed(Exception):
    """What was timed did not end well."""


class Bench:
    """The program that is timed, the floors in C, a folder for what they read and write, and how many keys a large keyring has."""

    def __init__(self, program, folder, keys):
        self.program, self.folder, self.keys = os.path.abspath(program), folder, keys
        self.floors = {}

    def floor(self, name):
        """The path of a floor, which is compiled at its first use."""
        if name not in self.floors:
            self.floors[name] = os.path.join(self.folder, f"floor-{name}")
            subprocess.run(["cc", "-O2", "-o", self.floors[name], os.path.join(HERE, f"{name}.c")], check=True)
        return self.floors[name]

    def path(self, name):
        return os.path.join(self.folder, name)

    def store(self, name, *steps):
        """A new store in a folder of its own, made by these runs: words, and a file as the input."""
        where = self.path(name)
        shutil.rmtree(where, ignore_errors=True)
        os.mkdir(where)
        for words, given in steps:
            ran([self.program, *words], given, where)
        return where

    def peak(self, words, given=None, where=None):
        """The most bytes of memory that a run of the program holds."""
        with open(given or os.devnull, "rb") as source:
            done = subprocess.run([self.floor("peak"), self.program, *words], stdin=source, capture_output=True, cwd=where, check=True)
        return int(done.stderr) * 1024

    def knows(self, command):
        """Whether the program has a command of this name."""
        with tempfile.TemporaryDirectory(dir=self.folder) as where:
            done = subprocess.run([self.program, command], stdin=subprocess.DEVNULL, capture_output=True, cwd=where, check=False)
        return b"unknown-command" not in done.stdout


def make_room():
    """Touches memory and gives it back. The host of a virtual machine takes away what its guest leaves free, and who asks for it next waits several times as long
    for each page: that is the host's time, and not the program's."""
    with mmap.mmap(-1, ROOM, mmap.MAP_PRIVATE | mmap.MAP_ANONYMOUS) as room:
        room[:: mmap.PAGESIZE] = bytes(ROOM // mmap.PAGESIZE)


def ran(words, given=None, where=None, told=None):
    """Seconds of a run with a file as the input, and a file for what is told."""
    make_room()
    with open(given or os.devnull, "rb") as source, open(told or os.devnull, "wb") as sink:
        start = time.monotonic()
        done = subprocess.run(words, stdin=source, stdout=sink, stderr=subprocess.PIPE, cwd=where, check=False)
        seconds = time.monotonic() - start
    if done.returncode:
        raise Failed(f"{words[:4]} ended with {done.returncode}: {done.stderr[-200:]}")
    return seconds


def output(words, where=None):
    """What a short run tells."""
    return subprocess.run(words, stdin=subprocess.DEVNULL, capture_output=True, cwd=where, check=True).stdout.decode()


def in_turn(*jobs, rounds=ROUNDS):
    """Does each job in its turn, some times over: the least answer of each."""
    answers = [[job() for job in jobs] for _ in range(rounds)]
    return [min(column) for column in zip(*answers)]


def turns(*jobs):
    """Does each job in its turn, many times over: the answers of each, turn by turn."""
    return list(zip(*([job() for job in jobs] for _ in range(TURNS))))


class Session:
    """The program held open over pipes, so that a command is timed without the store's opening."""

    def __init__(self, words, where):
        make_room()
        start = time.monotonic()
        self.child = subprocess.Popen(words, stdin=subprocess.PIPE, stdout=subprocess.PIPE, cwd=where, bufsize=0)
        self.ask("is answered once the store is open\n")
        self.opening = time.monotonic() - start

    def ask(self, lines):
        """Seconds from a command to the end of its reply, and the reply."""
        given = lines.encode()
        start = time.monotonic()
        while given:
            given = given[self.child.stdin.write(given):]
        pieces, tail = [], b""
        while not is_ended(tail):
            piece = os.read(self.child.stdout.fileno(), 1 << 20)
            if not piece:
                raise Failed(f"no reply to {lines[:60]!r}")
            pieces.append(piece)
            tail = (tail + piece)[-4096:]
        return time.monotonic() - start, b"".join(pieces)

    def accept(self, lines):
        """Seconds of a command that must be accepted."""
        seconds, reply = self.ask(lines)
        if reply.rpartition(b"\n")[0].rpartition(b"\n")[2][:2] != b"ok":
            raise Failed(f"{lines[:60]!r} was answered by {reply[-80:]!r}")
        return seconds

    def peak(self):
        """The most bytes of memory that the program has held."""
        with open(f"/proc/{self.child.pid}/status", encoding="ascii") as file:
            return next(int(line.split()[1]) * 1024 for line in file if line.startswith("VmHWM"))

    def close(self):
        self.child.stdin.close()
        self.child.stdout.close()
        self.child.wait()


def is_ended(told):
    """Whether a reply is whole: its last line begins with ok or err, as no other line of it does."""
    return told.endswith(b"\n") and told[:-1].rpartition(b"\n")[2].startswith((b"ok", b"err"))


@contextlib.contextmanager
def session(words, where):
    opened = Session(words, where)
    try:
        yield opened
    finally:
        opened.close()


def opened(words, where):
    """Seconds from a run's start to its first reply."""
    with session(words, where) as program:
        return program.opening


def table(title, columns, rows):
    """Prints a table."""
    print(f"\n**{title}**\n\n| {' | '.join(columns)} |\n|{'---|' * len(columns)}")
    for row in rows:
        cells = [str(cell).replace("|", r"\|") for cell in row]
        print(f"| {' | '.join(cells)} |")
    sys.stdout.flush()


def shown(seconds):
    """A time as people say it."""
    return f"{seconds:.2f} s" if seconds >= 1 else f"{seconds * 1e3:.1f} ms" if seconds >= 1e-3 else f"{seconds * 1e6:.0f} µs"


def megabytes(count):
    return f"{count / 1e6:.0f} MB" if count >= 1e7 else f"{count / 1e6:.1f} MB"


def times(seconds, floor):
    """A ratio, with two digits where it is small."""
    ratio = seconds / floor
    return f"{ratio:.1f}" if ratio >= 1 else f"{ratio:.2g}"


def middle(seconds):
    """The middle of what a job took in its turns."""
    return statistics.median(seconds)


def spread(seconds, floor):
    """What a job took beside its floor in the same turn: the middle of all turns, and the least and the greatest."""
    ratios = sorted(took / least for took, least in zip(seconds, floor))
    middlemost, least, most = (times(ratio, 1) for ratio in (statistics.median(ratios), ratios[0], ratios[-1]))
    return f"{middlemost} ({least} to {most})"
