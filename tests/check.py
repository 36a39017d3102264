#!/usr/bin/env python3
"""Asks the built program to recount its introducers by several workers: each number of them tells the same, which is what another reader of the rules
counts, and nothing is changed.
"""
import os
import pwd
import random
import re
import resource
import shutil
import subprocess
import sys
import tempfile

from reference import histories, keyring, store
from reference.histories import COMPACT, NEW, Steps
from reference.program import PROGRAM, REAL, USAGE, folder, imported, run

WORKERS = ((), ("--workers", "1"), ("--workers", "2"), ("--workers=3",), ("--workers", "64"))


def result(done):
    return done.returncode, done.stdout, done.stderr


def counted(where, words=()):
    """What `check` tells by each number of workers, as a command and in a session, and whether the files stay byte for byte."""
    before = store.read_sides(where)
    for workers in WORKERS:
        yield f"check by {workers}", result(run("", [*workers, "check"], where)), result(run("check\n", where=where))
        yield f"check in a session by {workers}", result(run("check\ncheck\n", workers, where))[1], run("check\n", where=where).stdout * 2
    yield "the files", store.read_sides(where), before


def by_another(where):
    """What `check` tells beside another reader's count of the same files."""
    found = store.shown(*store.read_sides(where))
    yield "the tally", result(run("check\n", where=where)), (0, keyring.tally(found.state) + b"ok\n", b"")
    yield from counted(where)


def made_keys():
    """The keys of a sample: `check` tells the tally of the sample."""
    told = [result(run("sample 7 5000\ncheck\n", workers)) for workers in WORKERS]
    lines = told[0][1].splitlines()
    yield "the lines", [line.split(b":")[0] for line in lines], [b"tally", b"ok keys 5000", b"tally", b"ok"]
    yield "the tallies", lines[0], lines[2]
    for workers, one in zip(WORKERS, told):
        yield f"by {workers}", one, (0, told[0][1], b"")
    with folder() as where:
        yield "a sample", run("sample 7 700\n", where=where).returncode, 0
        yield from by_another(where)


def real_keys():
    """A listing of gpg, and the same moved to the other side."""
    with folder() as where:
        first = re.search(r"^fpr:+([0-9A-F]{40}):", REAL, re.M)[1]
        yield "an import", run(f"trust {first} u\n" + imported(REAL), where=where).returncode, 0
        yield from by_another(where)
        yield "a compaction", result(run("", ["compact"], where)), (0, b"ok\n", b"")
        yield from by_another(where)


def keys_at_random():
    """Keyrings that edits and compactions at random leave."""
    for seed in range(6):
        steps, reached = Steps(random.Random(seed), made=60).some(NEW, 12)
        with folder() as where:
            run("".join(step.given for step in steps), where=where)
            yield f"what the files of seed {seed} show", store.shown(*store.read_sides(where)), reached[-1]
            yield from by_another(where)


def levels():
    """A chain of introducers up to the last level that there may be, each with a row."""
    names = [f"{number:02X}" for number in range(1, 255)]
    chain = [histories.options(keyring.Options(True, 1, 3, 255, 2)), histories.entries({name: ("u" if name == "01" else "f", False) for name in names})]
    chain.append(histories.keys(*(histories.key(name, *([before] if before else [])) for before, name in zip(["", *names], names))))
    with folder() as where:
        yield "a chain", result(run("".join(step.given for step in [*chain, COMPACT]), where=where))[0], 0
        yield from by_another(where)


def usages():
    """Numbers of workers that are none, and words that are too many."""
    with folder() as where:
        for words in (["--workers", "0"], ["--workers", "65"], ["--workers=0"], ["--workers=65"], ["--workers", "x"], ["--workers", "3", "--workers", "3"], ["--workers"]):
            for command in ([], ["check"], ["compact"]):
                given = [*command, *words] if words == ["--workers"] else [*words, *command]
                yield f"{given}", result(run("check\n", given, where)), (2, b"", USAGE.encode())
        yield "the folder", os.listdir(where), []
    for line, wanted in (("check x", b"err bad-argument 1\n"), ("compact x", b"err bad-argument 1\n"), ("Check", b"err unknown-command\n"), ("compact now 2", b"err bad-argument 1\n")):
        with folder() as where:
            run("date 5\n", where=where)
            before = store.read_sides(where)
            yield line, result(run(f"{line}\n", where=where)), (1, wanted, b"")
            yield f"{line} as a command", result(run("", line.split(), where)), (1, wanted, b"")
            yield f"the files after {line}", store.read_sides(where), before


def threads():
    """Four workers are three threads beside the first for the seals, three for the rows and three for the counts where a store is opened, and at `check` three
    more for the rows, which have one level here, and three for the letters; where a session begins, three for its index. One worker is none.
    """
    if not shutil.which("strace"):
        print("check: threads: skipped: no strace")
        return
    with folder() as where, tempfile.NamedTemporaryFile() as log:
        run("sample 7 700\noptions pgp 1 3 1 2\ncompact\n", where=where)
        started = []
        for workers, words in ((1, ["check"]), (4, ["check"]), (1, ["export"]), (4, ["export"]), (1, []), (4, [])):
            traced = ["strace", "-f", "-o", log.name, "-e", "trace=clone,clone3", PROGRAM, "--workers", str(workers), *words]
            done = subprocess.run(traced, input=b"export\n", capture_output=True, cwd=where, timeout=120, check=False)
            if done.returncode:
                print(f"check: threads: skipped: no run under strace: {done.returncode}")
                return
            with open(log.name, encoding="utf-8", errors="replace") as file:
                # each line begins with the number of its thread, and each thread has one where it ends
                started.append(len({line.split()[0] for line in file}) - 1)
        yield "threads of check, of export and of a session, by one worker and by four", started, [0, 15, 0, 9, 0, 12]


def no_threads():
    """A user who may start no thread is told the same."""
    if os.geteuid() != 0 or "nobody" not in {user.pw_name for user in pwd.getpwall()}:
        print("check: no threads: skipped: not root, or nobody is no user")
        return
    with folder() as where, folder() as reached:
        run("sample 7 700\ncompact\n", where=where)
        there = shutil.copy(PROGRAM, reached)
        for path, mode in ((where, 0o777), (reached, 0o755), (there, 0o755), *((os.path.join(where, name), 0o666) for name in store.NAMES)):
            os.chmod(path, mode)
        done = subprocess.run(
            [there, "--workers", "64"], input=b"check\n", capture_output=True, cwd=where, timeout=120, check=False, user="nobody",
            group=pwd.getpwnam("nobody").pw_gid, extra_groups=[], preexec_fn=lambda: resource.setrlimit(resource.RLIMIT_NPROC, (0, 0)),
        )
        yield "where no thread can be started", result(done), result(run("check\n", where=where))


done = 0
for check in (made_keys, real_keys, keys_at_random, levels, usages, threads, no_threads):
    for name, told, wanted in check():
        if told != wanted:
            sys.exit(f"check: {check.__name__}: {name}: {told!r} in place of {wanted!r}")
        done += 1
print(f"check: {done} ok")
