#!/usr/bin/env python3
"""Refuses memory to the built program, one allocation in a run, and looks at how it ends and at what its store shows then.

A library that is loaded before C's own lets the n-th call of `malloc` or `realloc` fail. Each worked session is run for every n up to where
none fails. A run ends with status 7, or with 3, 4 or 5 and the reason where the streams or the files were short of memory; it tells a prefix of
what it tells with memory, and a later run shows the first edits, every one of them that was acknowledged. Where the tests of whole runs are built
(by `rt test` in their folder, or given as the second word), their sessions over a site in memory are run so too. It skips where there is no C
compiler.
"""
import itertools
import os
import pathlib
import shutil
import subprocess
import sys
import tempfile

from reference.program import PROGRAM, by, fault, fingerprint, folder, imported, key, run, short, trust

tempfile.tempdir = "/dev/shm" if os.path.isdir("/dev/shm") else None
TESTS = pathlib.Path(sys.argv[2] if len(sys.argv) > 2 else "crates/wot_tests/out/wot_tests_tests").absolute()
TEST = "memory::want_of_memory_loses_no_edit"
NO_MEMORY = (7, b"wot: out of memory\n")
REFUSING = r"""
#include <errno.h>
#include <fcntl.h>
#include <stdlib.h>
#include <unistd.h>

extern void *__libc_malloc(size_t), *__libc_realloc(void *, size_t);
static long calls;

/* Whether this call is the one that fails; then a file tells of it. */
static int fails(void) {
    const char *number = getenv("REFUSED"), *told = getenv("TOLD");
    if (!number || !told || __sync_add_and_fetch(&calls, 1) != atol(number))
        return 0;
    close(open(told, O_CREAT | O_WRONLY, 0600));
    errno = ENOMEM;
    return 1;
}

void *malloc(size_t size) { return fails() ? NULL : __libc_malloc(size); }
void *realloc(void *old, size_t size) { return fails() ? NULL : __libc_realloc(old, size); }
"""
TWO_USERS = key("B", by("A", trusts="1 120")) + "uid:-::::1000::::B2 <b2@example.org>:\n" + by("F", 3000, trusts="1 60")
# the edits of a session, and its last commands
SESSIONS = {
    "a listing": ([trust("A", "u"), imported(key("A"), key("B", "A"))], "list\n"),
    "why": ([trust("A", "u"), trust("F", "u"), imported(key("A"), TWO_USERS, key("C", by("B", 4000)), key("F"))], f"why {fingerprint('C')} 1\n"),
    "what is supposed": (
        [trust("A", "u"), trust("B", "m"), imported(key("A"), key("B", "A"), key("C", "B"))],
        f"suppose trust {fingerprint('B')} f\ncritical {fingerprint('C')} 1\nsuppose options classic 1 3 1 2\nsuppose date 5000\n",
    ),
    "earlier states": (
        [trust("A", "u"), imported(key("A"), key("B", "A")), trust("B", "m"), imported(key("C", "B"))],
        f"at 2 list\nat 4 why {fingerprint('C')} 1\nat 5 list\ncompact\nat 0 list {fingerprint('B')}\n",
    ),
    "a compaction": ([trust("A", "u"), trust("B", "f")], "compact\n"),
}


def refused(library, number, words, given=b"", where=None):
    """A run whose allocation of that number fails, and whether it came to it."""
    with folder() as empty:
        told = os.path.join(empty, "told")
        env = {"LD_PRELOAD": library, "REFUSED": str(number), "TOLD": told}
        done = subprocess.run(words, input=given, capture_output=True, cwd=where or empty, env=env, timeout=120, check=False)
        return done, os.path.exists(told)


def fault_of(done, whole, shown, states):
    """What is wrong with a run to which memory was refused: with its end, with what it told, or with what its store shows."""
    acknowledged = min(done.stdout.count(b"\n"), len(states) - 1)
    if done.returncode == whole.returncode and (done.stdout, done.stderr) != (whole.stdout, whole.stderr):
        return "ended as with memory, and told something else"
    told = fault(done.stderr)
    if done.returncode != whole.returncode and (done.returncode, done.stderr) != NO_MEMORY and (told is None or told.status != done.returncode):
        return f"ended with another status, told by {done.stderr!r}"
    if not whole.stdout.startswith(done.stdout):
        return "told something else"
    if shown not in states[acknowledged:]:
        return f"{acknowledged} edits acknowledged, shown is {short(shown)}"
    return None


def sweep(library, name):
    """Runs a session for each number, and answers how many there are, by the status."""
    edits, last = SESSIONS[name]
    given = "".join(edits) + last
    whole = run(given)
    states = [run("".join(edits[:count]) + "export\nsigs\n").stdout.split(b"\n", count)[count] for count in range(len(edits) + 1)]
    ends = {}
    for number in itertools.count(1):
        with folder() as store:
            done, failed = refused(library, number, [PROGRAM], given.encode(), store)
            if not failed:
                return ends
            shown = run("export\nsigs\n", where=store)
        wrong = "the next run failed" if shown.returncode else fault_of(done, whole, shown.stdout, states)
        if wrong:
            sys.exit(f"memory: {name}: allocation {number}: {wrong}: status {done.returncode}, told {short(done.stdout)}")
        ends[done.returncode] = ends.get(done.returncode, 0) + 1


def sweep_test(library):
    """Runs the test of sessions over a site in memory for each number, and answers how many there are.

    The test fails by an assertion, which ends it by a signal, where an edit is lost. It ends with an error where the memory of its own was refused.
    """
    for number in itertools.count(1):
        done, failed = refused(library, number, [TESTS, TEST])
        if not failed:
            return number - 1
        if done.returncode < 0:
            sys.exit(f"memory: {TEST}: allocation {number}: {short(done.stderr)}")


def main():
    compiler = shutil.which("cc") or shutil.which("clang")
    if not compiler:
        print("memory: skipped: no C compiler")
        return
    with tempfile.TemporaryDirectory(prefix="wot") as built:
        library = os.path.join(built, "refusing.so")
        subprocess.run([compiler, "-shared", "-fPIC", "-O1", "-o", library, "-x", "c", "-"], input=REFUSING.encode(), check=True)
        for name in SESSIONS:
            ends = sweep(library, name)
            said = ", ".join(f"{count} with status {status}" for status, count in sorted(ends.items()))
            print(f"memory: {name}: {sum(ends.values())} allocations refused: {said}")
        if TESTS.exists():
            print(f"memory: sessions over a site in memory: {sweep_test(library)} allocations refused")
        else:
            print("memory: sessions over a site in memory: skipped: the tests are not built (rt test in crates/wot_tests)")


if __name__ == "__main__":
    main()
