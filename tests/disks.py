#!/usr/bin/env python3
"""Lets the disk fail under the built program: at each call that it makes, where a file may grow no more, on a full disk, and where a file of the
store can't be opened, is something else or can't be written.

Each run ends with the status of what failed, and tells on what the call was made and the system's error. What it leaves is then opened on a disk
that is well: a second reader of the files and the program find the same, the store after all steps whose `ok` was told, or after one more. What the
machine has no means for is skipped, and said so.
"""
import collections
import contextlib
import errno
import os
import pwd
import re
import resource
import shutil
import signal
import stat
import subprocess
import sys
import tempfile

from reference import histories, store
from reference.histories import ASKED, COMPACT, NEW
from reference.keyring import Options
from reference.program import PROGRAM, by, fault, folder, key, run, short

STEPS = [
    histories.trust("A", "u"), histories.keys(key("A"), key("B", "A")), COMPACT, histories.trust("B", "f"), histories.sample(7, 30), COMPACT,
    histories.options(Options(True, 1, 2, 5, 1)), histories.keys(key("C", by("B", trusts="1 60"))), COMPACT, histories.date(5000),
]
SESSION = "".join(step.given for step in STEPS).encode()
# at the end it asks of an earlier state, for which the shown side is read again
ASKING = SESSION + b"at 1 list\n"
REACHED = histories.states(NEW, STEPS)
STREAMS = {0: "standard input", 1: "standard output"}
PLACES = {"standard input": 3, "standard output": 4, "the current folder": 5, "wot.0": 5, "wot.1": 5}


class Differs(Exception):
    """What is not as it should be."""


def need(holds, *said):
    if not holds:
        raise Differs(" ".join(one if isinstance(one, str) else short(repr(one)) for one in said))


def session(where, limits=None, told=subprocess.PIPE, given=SESSION, words=(), **more):
    """A run of the session, which may have limits set before."""
    done = subprocess.run([*more.pop("front", []), PROGRAM, *words], input=given, stdout=told, stderr=subprocess.PIPE, cwd=where, timeout=120, preexec_fn=limits, check=False, **more)
    return done.returncode, done.stdout or b"", done.stderr


def kept(sides, told, reached=tuple(REACHED)):
    """How many steps a store holds, which are all that were acknowledged and at most one more, to a second reader and to the program."""
    found, count = store.shown(*sides), min(histories.acknowledged(told), len(reached) - 1)
    places = [place for place in (count, count + 1) if place < len(reached) and reached[place] == found]
    need(places, count, "steps are acknowledged, and a second reader finds", found)
    with folder() as other:
        store.write_sides(other, sides)
        done = run(ASKED, where=other)
    need((done.returncode, done.stdout, done.stderr) == (0, histories.shows(found.state), b""), count, "steps are acknowledged, and the program tells", done)
    return places[0]


def well(done):
    need((done[0], done[2]) == (0, b""), "ended as", done, "in place of well")


def failed(done, error=None, places=store.NAMES):
    """Where a run ended for a call on one of these places, with this error of the system."""
    told = fault(done[2])
    need(told and told.place in places and (done[0], told.status) == (PLACES[told.place],) * 2, "ended as", done, "in place of a fault of", places)
    need(told.error == error if error else told.error, "ended by", done, "in place of", error)


def ended(done, error, places=store.NAMES):
    """Where a run came to its end, or failed so."""
    if done[0]:
        failed(done, error, places)
    else:
        well(done)


CALL = re.compile(r'^\d+ +(\w+)\((?:AT_FDCWD, "([^"]*)"|(\d+)).* = (-?\d+)')
ERRORS = {"openat": errno.EACCES, "flock": errno.EAGAIN, "write": errno.ENOSPC}


def failing(name, number, error, where, log):
    """The session with one call failing."""
    traced = ["strace", "-f", "-o", log, "-e", f"trace={name}", "-e", f"inject={name}:error={errno.errorcode[error]}:when={number}"]
    return session(where, given=ASKING, front=traced)


def calls_of_a_session():
    """The calls of the session from the first on a file on: the name, the number among those of this name, and what it is on, as it is told."""
    counts, found, begun, places = collections.Counter(), [], False, dict(STREAMS)
    with folder() as where, tempfile.NamedTemporaryFile() as log:
        well(session(where, given=ASKING, front=["strace", "-f", "-o", log.name, "-e", "trace=openat,flock,fsync,fdatasync,fstat,newfstatat,statx,lseek,read,write"]))
        for line in log.read().decode(errors="replace").splitlines():
            call = CALL.match(line)
            if call:
                name, path, on, result = call.groups()
                counts[name] += 1
                begun = begun or path == "."
                if path:
                    places[int(result)] = "the current folder" if path == "." else path
                if begun:
                    found.append((name, counts[name], places[int(result if path else on)]))
    return found


def each_call():
    """Each call fails once: the status and the reason are those of what it is on."""
    if not shutil.which("strace"):
        return "skipped: no strace"
    try:
        calls = calls_of_a_session()
    except Differs as differs:
        return f"skipped: no run under strace: {differs}"
    statuses = collections.Counter()
    with tempfile.NamedTemporaryFile() as log:
        for name, number, on in calls:
            error = ERRORS.get(name, errno.EIO)
            with folder() as where:
                done = failing(name, number, error, where, log.name)
                sides = store.read_sides(where)
            try:
                failed(done, error, [on])
                kept(sides, done[1])
            except Differs as differs:
                raise Differs(f"{name} number {number}, on {on}: {differs}") from None
            statuses[done[0]] += 1
        interrupted = [call for call in calls if call[2] in STREAMS.values()]
        for name, number, on in interrupted:
            with folder() as where:
                done = failing(name, number, errno.EINTR, where, log.name)
            well(done)
    return f"ok, {len(calls)} calls: " + ", ".join(f"{count} end with {status}" for status, count in sorted(statuses.items())) + f"; {len(interrupted)} interrupted"


def ends_of_writes():
    """Where the writes of the session end in their files."""
    sides, ends = set(), {1, store.HEADER}
    with folder() as where:
        for step in STEPS:
            run(step.given, where=where)
            sides.update(map(len, store.read_sides(where)))
    ends.update(store.base_end(n) + 1 for n in range(4))
    return sorted({max(0, end + more) for end in ends | sides for more in (-1, 0, 1)})


def limited(size):
    def limits():
        signal.signal(signal.SIGXFSZ, signal.SIG_IGN)
        resource.setrlimit(resource.RLIMIT_FSIZE, (size, size))
    return limits


def files_that_may_not_grow():
    """A file may have so many bytes at most: the write that passes them is made in part."""
    counts = []
    for size in ends_of_writes():
        with folder() as where:
            done = session(where, limited(size))
            sides = store.read_sides(where)
            need(max(map(len, sides)) <= size, size, "bytes may be written, and", max(map(len, sides)), "are")
        ended(done, errno.EFBIG)
        need(done[0] or histories.acknowledged(done[1]) == len(STEPS), "the run has not told all:", done)
        counts.append(kept(sides, done[1]))
    need(counts[0] == 0 and counts[-1] == len(STEPS), "the limits are not those of the session", counts)
    return f"ok, {len(counts)} sizes, which hold 0 to {len(STEPS)} steps"


class NoDisk(Exception):
    """No disk can be mounted."""


@contextlib.contextmanager
def disk(words):
    """A small disk of its own."""
    with tempfile.TemporaryDirectory(prefix="wot") as where:
        if subprocess.run(["mount", "-t", "tmpfs", "-o", words, "none", where], capture_output=True, check=False).returncode:
            raise NoDisk
        try:
            yield where
        finally:
            subprocess.run(["umount", "-l", where], capture_output=True, check=False)


def full_disks():
    """A disk of so many blocks is full at some write; one without a free name has no room for the files."""
    counts = []
    try:
        for blocks in range(1, 12):
            with disk(f"size={4 * blocks}k") as where:
                done = session(where)
                ended(done, errno.ENOSPC)
                counts.append(kept(store.read_sides(where), done[1]))
        for names, name in ((1, "wot.0"), (2, "wot.1")):
            with disk(f"nr_inodes={names}") as where:
                failed(session(where), errno.ENOSPC, [name])
                need(store.read_sides(where) == (b"", b""), "something was written")
        many = [histories.trust("%02X" % n, "qnmfu"[n % 5]) for n in range(256)] * 9
        with disk("size=60k") as where:
            done = session(where, given="".join(step.given for step in many).encode())
            failed(done, errno.ENOSPC)
            last = kept(store.read_sides(where), done[1], histories.states(NEW, many))
    except NoDisk:
        return "skipped: no disk can be mounted"
    need(counts[0] == 0 and counts[-1] == len(STEPS), "the disks are not of the session's size", counts)
    return f"ok, of 1 to {len(counts)} blocks, which hold {counts} steps, and one that is full after {last} edits"


def output_on_a_full_disk():
    """What is told goes to a disk that has room for so many bytes more: what was told wholly is kept."""
    edits = [histories.trust("%02X" % n, "f") for n in range(9)]
    try:
        for room in range(10):
            with disk("size=4k") as small, folder() as where:
                with open(os.path.join(small, "told"), "wb+") as told:
                    told.write(bytes(4096 - room))
                    told.flush()
                    failed(session(where, told=told, given="".join(step.given for step in edits).encode()), errno.ENOSPC, ["standard output"])
                    told.seek(4096 - room)
                    kept(store.read_sides(where), told.read(), histories.states(NEW, edits))
    except NoDisk:
        return "skipped: no disk can be mounted"
    return "ok, with room for 0 to 9 bytes"


def old_store(where):
    """A store that was moved to its other side."""
    run("".join(step.given for step in STEPS[:4]), where=where)
    return store.read_sides(where)


def stays(where, sides, what):
    left = store.read_sides(where)
    need(left == sides, what, "the files were changed")


def as_nobody(where, given=SESSION):
    """A run of a user who owns nothing, of a program that this user can reach."""
    with tempfile.TemporaryDirectory(prefix="wot") as reached:
        os.chmod(reached, 0o755)
        there = shutil.copy(PROGRAM, reached)
        os.chmod(there, 0o755)
        done = subprocess.run([there], input=given, capture_output=True, cwd=where, timeout=120, user="nobody", group=pwd.getpwnam("nobody").pw_gid, extra_groups=[], check=False)
    return done.returncode, done.stdout, done.stderr


def files_of_another():
    """A user who may not open a file, not write it, or not make one."""
    if os.geteuid() != 0:
        return "skipped: not root"
    try:
        pwd.getpwnam("nobody")
    except KeyError:
        return "skipped: nobody is no user"
    modes = [(0o000, 0o666), (0o666, 0o000), (0o444, 0o666), (0o666, 0o444), (0o222, 0o666), (0o444, 0o444), (0o666, 0o222)]
    for mode in modes:
        with folder() as where:
            sides = old_store(where)
            os.chmod(where, 0o777)
            for name, bits in zip(store.NAMES, mode):
                os.chmod(os.path.join(where, name), bits)
            for given in (SESSION, b"list\n"):
                done = as_nobody(where, given)
                failed(done, errno.EACCES, [next(name for name, bits in zip(store.NAMES, mode) if bits != 0o666)])
                need(done[1] == b"", "told", done[1])
            stays(where, sides, mode)
    for name in (None, *store.NAMES):
        with folder() as where:
            if name:
                with open(os.path.join(where, name), "wb"):
                    pass
                os.chmod(os.path.join(where, name), 0o666)
            os.chmod(where, 0o755)
            failed(as_nobody(where), errno.EACCES, [next(one for one in store.NAMES if one != name)])
            need(os.listdir(where) == [one for one in (name,) if one], "files were made", os.listdir(where))
    with folder() as where:
        sides = old_store(where)
        os.chmod(where, 0o755)
        for name in store.NAMES:
            os.chmod(os.path.join(where, name), 0o666)
        done = as_nobody(where, STEPS[4].given.encode())
        well(done)
        kept(store.read_sides(where), b"ok\n" * 4 + done[1])
    return f"ok, {len(modes)} pairs of rights, and folders that hold no more"


# the error with which such a thing is not opened; another is, and fails later
OPENED = {
    "a folder": errno.EISDIR, "a link to itself": errno.ELOOP, "a link into no folder": errno.ENOENT, "a folder elsewhere": errno.EISDIR,
    "a link to /dev/tty": errno.ENXIO,
}


def things_that_are_no_files():
    """In place of a file stands a folder, a pipe, a device or a link that leads nowhere."""
    kinds = {
        "a folder": os.mkdir, "a pipe": os.mkfifo, "a link to itself": lambda path: os.symlink(path, path),
        "a link into no folder": lambda path: os.symlink(f"{path}-none/wot", path), "a folder elsewhere": lambda path: os.symlink("/", path),
    }
    # a link to a device that isn't there would make it a file
    kinds |= {f"a link to {there}": lambda path, there=there: os.symlink(there, path) for there in ("/dev/full", "/dev/tty") if os.path.exists(there)}
    tried = 0
    for kind, make in kinds.items():
        for name, other in (store.NAMES, store.NAMES[::-1]):
            with folder() as where:
                sides = old_store(where)
                path = os.path.join(where, name)
                os.unlink(path)
                make(path)
                done = session(where, given=b"list\n", start_new_session=True)
                need(done[1] == b"", kind, "as", name, done)
                failed(done, OPENED.get(kind), [name] if kind in OPENED else store.NAMES)
                left = store.read_file(os.path.join(where, other))
                need(left == sides[store.NAMES.index(other)], kind, "the other file was changed")
                need(not stat.S_ISREG(os.lstat(path).st_mode), kind, "is a file now")
            tried += 1
    return f"ok, {tried}"


def disks_that_are_read_only():
    """Nothing can be written: a query, too, needs files that can be."""
    try:
        with disk("size=1m") as where:
            sides = old_store(where)
            if subprocess.run(["mount", "-o", "remount,ro", where], capture_output=True, check=False).returncode:
                return "skipped: no disk can be mounted again"
            for given in (SESSION, b"list\n"):
                failed(session(where, given=given), errno.EROFS, ["wot.0"])
            stays(where, sides, "read only")
    except NoDisk:
        return "skipped: no disk can be mounted"
    return "ok"


def no_descriptors():
    """A run may open so few files that one of the store is beyond them."""
    def limits_of(count):
        return lambda: resource.setrlimit(resource.RLIMIT_NOFILE, (count, count))
    found = []
    with folder() as where:
        sides = old_store(where)
        for count in (3, 4, 5, 6, 7):
            done = session(where, limits_of(count), given=b"list\n")
            # below, the system can't load the program
            if done[0] != 127:
                ended(done, errno.EMFILE, ["the current folder", *store.NAMES])
                found.append(done[0])
            stays(where, sides, count)
    need(5 in found and found[-1] == 0, "the limits are not those of a run", found)
    return "ok"


CHECKS = (
    each_call, files_that_may_not_grow, full_disks, output_on_a_full_disk, files_of_another, things_that_are_no_files, disks_that_are_read_only, no_descriptors,
)


def main():
    faults = False
    for check in CHECKS:
        try:
            said = check()
        except Differs as differs:
            faults, said = True, f"FAULT: {differs}"
        print(f"disks: {check.__name__}: {said}", flush=True)
    sys.exit(1 if faults else 0)


if __name__ == "__main__":
    main()
