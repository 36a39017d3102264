#!/usr/bin/env python3
"""Asks the built program of the states after each number of edits since the base, and compares the answers with a replay of its own.

histories.py PROGRAM [--sessions NUMBER] [--seed NUMBER]: edits and compactions at random, and after each of them `at N` for each N from 0 to two
above the number of edits since the base, with `list`, of one key too, and `why`. What is told is what a fresh store tells that is given the first
edits alone, byte for byte, and what a second reading of the rules gives. The store is asked again by a run for each step, and after a
reopening by several workers. A hundred questions leave both files as they are, and a refused one counts for the exit status. Last come a store of
many edits, and one in the last epoch, which `compact` leaves as it is.
"""
import argparse
import itertools
import os
import random
import sys
import tempfile
from concurrent.futures import ThreadPoolExecutor

from reference import earlier, histories, store
from reference.histories import COMPACT, NAMES, Steps
from reference.program import fingerprint, folder, run, short

STEPS = 12
GREATEST = 2**64 - 1


class Wrong(Exception):
    """What was told is not what should be."""


def same(what, told, wanted):
    if told != wanted:
        raise Wrong(f"{what}: told {short(told)} in place of {short(wanted)}")


def replies(told):
    """Replies, each up to the line that ends it."""
    found, lines = [], []
    for line in told.splitlines(keepends=True):
        lines.append(line)
        if line.startswith((b"ok", b"err")):
            found.append(b"".join(lines))
            lines = []
    return found


def queries(chance):
    """What may be asked of an earlier state: all keys, some of them, and why."""
    some = [f"list {fingerprint(name)}" for name in chance.sample(NAMES, 2)]
    return ["list", *some, *(f"why {fingerprint(name)} {chance.choice((1, 1, 1, 2))}" for name in chance.sample(NAMES, 2))]


def since_base(steps, reached, count):
    """The states since the base after so many steps, the first of them that of the base; a step that changed nothing is counted too."""
    states = [reached[0].state]
    for step, found in itertools.islice(zip(steps, reached[1:]), count):
        states = [found.state] if step is COMPACT else [*states, found.state]
    return states


def edits_of_base(steps, count):
    """How many of so many steps came before the base."""
    return max((number for number, step in enumerate(steps[:count], 1) if step is COMPACT), default=0)


def fresh(steps, count, asked):
    """What a fresh store tells that is given the first so many steps without a compaction."""
    given = "".join(step.given for step in steps[:count] if step is not COMPACT)
    done = replies(run(given + "".join(f"{query}\n" for query in asked)).stdout)
    return done[len(done) - len(asked):]


def numbers(states):
    return [*range(len(states) + 2), GREATEST]


def asked_of(states, asked):
    """All questions of the states since the base, each with its reply by the second reading."""
    return [(f"at {number} {query}\n", earlier.at(states, number, *query.split(" "))) for number in numbers(states) for query in asked]


def session(seed):
    """One session; how many questions were asked, of how many states."""
    chance = random.Random(seed)
    steps, reached = Steps(chance, made=6, compactions=0.18).some(histories.NEW, STEPS)
    asked = [queries(chance) for _ in range(STEPS + 1)]
    questions = [asked_of(since_base(steps, reached, count), asked[count]) for count in range(STEPS + 1)]
    given = "".join(question for question, _ in questions[0])
    for step, more in zip(steps, questions[1:]):
        given += step.given + "".join(question for question, _ in more)
    with folder() as where:
        done = run(given, where=where)
        same(f"seed {seed}: how the session ends", (done.returncode, done.stderr), (1, b""))
        same(f"seed {seed}: the files", store.read_sides(where), histories.files((b"", b""), steps)[-1])
        again = run("".join(question for question, _ in questions[-1]), ["--workers", "3"], where)
    told = iter(replies(done.stdout))
    for count, more in enumerate(questions):
        if count:
            next(told)
        compared(f"seed {seed}: after {count} steps", more, [next(told) for _ in more], steps, count, asked[count])
    same(f"seed {seed}: nothing more", list(told), [])
    same(f"seed {seed}: reopened", replies(again.stdout), [wanted for _, wanted in questions[-1]])
    run_by_run(seed, steps, questions)
    return sum(map(len, questions)), sum(len(since_base(steps, reached, count)) for count in range(STEPS + 1))


def compared(what, questions, told, steps, count, asked):
    """Each reply is that of the second reading, and that of a fresh store with the first edits."""
    for (question, wanted), reply in zip(questions, told):
        same(f"{what}: {question.strip()}, by the second reading", reply, wanted)
    base = edits_of_base(steps, count)
    for number in range(count - base + 1):
        wanted = fresh(steps, base + number, asked)
        same(f"{what}: at {number}, by a fresh store", told[number * len(asked):(number + 1) * len(asked)], wanted)


def run_by_run(seed, steps, questions):
    """The same by a run for each step, and one of one question behind it."""
    chance = random.Random(seed)
    with folder() as where:
        for count, step in enumerate(steps, 1):
            run(step.given, where=where)
            question, wanted = chance.choice(questions[count])
            done = run(b"", question.split(), where)
            same(f"seed {seed}: run {count}: {question.strip()}", (done.stdout, done.stderr, done.returncode), (wanted, b"", int(wanted.startswith(b"err"))))


def unwritten():
    """A hundred questions leave both files as they are, whether they are answered or refused; a refused one counts for the status."""
    chance = random.Random(20)
    steps, reached = Steps(chance, made=6, compactions=0).some(histories.NEW, 8)
    for before in ([], [COMPACT]):
        states = since_base(steps, reached, 8) if not before else [reached[-1].state]
        with folder() as where:
            run("".join(step.given for step in [*steps, *before]), where=where)
            sides = store.read_sides(where)
            times = [os.stat(os.path.join(where, name)).st_mtime_ns for name in store.NAMES]
            answered = [f"at {chance.randrange(len(states))} {query}\n" for query in ("list", f"list {fingerprint('A')}") for _ in range(50)]
            present = {question: earlier.at(states, int(question.split()[1]), *question.split()[2:]) for question in answered}
            done = run("".join(answered), where=where)
            same("a hundred answers", replies(done.stdout), [present[question] for question in answered])
            same("the status", done.returncode, int(any(reply.startswith(b"err") for reply in present.values())))
            refused = [f"at {number} list\n" for number in (len(states), 2**32, GREATEST)] + ["at x list\n", f"at {GREATEST + 1} list\n", f"at 0 why {fingerprint('A')} 0\n"]
            for question in refused:
                done = run(question, where=where)
                same(f"{question.strip()} is refused", (done.returncode, done.stdout[:4], done.stdout.count(b"\n"), done.stderr), (1, b"err ", 1, b""))
            same("the files", store.read_sides(where), sides)
            same("when they were written", [os.stat(os.path.join(where, name)).st_mtime_ns for name in store.NAMES], times)
    return 2 * (len(answered) + len(refused))


def many():
    """A store of many edits: the date at each of some numbers, and of how many edits it tells."""
    count = 5000
    with folder() as where:
        given = "".join(f"date {number}\n" for number in range(1, count + 1))
        asked = [0, 1, 2, 4095, 4096, count - 1, count]
        done = run(given + "".join(f"at {number} list\n" for number in asked) + f"at {count + 1} list\n", where=where)
        wanted = [b"tru::1:%d:0:3:1:5\nok\n" % number for number in asked] + [b"err no-such-time %d\n" % count]
        same("many edits", replies(done.stdout)[count:], wanted)
        same("many edits, reopened", run(b"", ["at", str(count), "list"], where).stdout, wanted[-2])
    return len(asked) + 2


def last_epoch():
    """In the last epoch `compact` moves nothing, and forgets nothing."""
    steps = [histories.trust("A", "u"), histories.date(77), histories.sample(7, 3)]
    reached = histories.states(histories.NEW, steps)
    asked = [*range(len(steps) + 1), GREATEST]
    with folder() as where:
        store.write_sides(where, (b"", store.side_for(store.LAST_EPOCH, reached[0].state, [step.payload for step in steps[:2]])))
        done = run(steps[2].given + "compact\n" + "".join(f"at {number} list\n" for number in asked), where=where)
    wanted = [earlier.at([found.state for found in reached], number, "list") for number in asked]
    same("the last epoch", replies(done.stdout)[2:], wanted)
    return len(asked)


def main():
    parser = argparse.ArgumentParser()
    parser.add_argument("program")
    parser.add_argument("--sessions", type=int, default=12)
    parser.add_argument("--seed", type=int, default=1)
    given = parser.parse_args()
    try:
        with ThreadPoolExecutor(2) as pool:
            found = list(pool.map(session, (1_000_000 * given.seed + number for number in range(given.sessions))))
        alone = unwritten() + many() + last_epoch()
    except Wrong as wrong:
        sys.exit(f"histories: {wrong}")
    print(
        f"histories: {sum(questions for questions, _ in found)} questions at random of {sum(states for _, states in found)} states in {given.sessions} sessions from seed {given.seed}, "
        f"each answered as by a fresh store and by a second reading; {alone} more: ok"
    )


if __name__ == "__main__":
    # no store here has to outlive a stop of the machine
    tempfile.tempdir = "/dev/shm" if os.path.isdir("/dev/shm") else None
    main()
