#!/usr/bin/env python3
"""Moves stores of the built program to their other side, and compares both files byte for byte with those that a second writer of the formats makes.

Sessions at random are run whole, with the store opened anew for each command, and with questions between the commands; bases of all sizes about the
ends of pages; over whatever an earlier base or a stop has left on the other side; and in the last epoch, which no other follows.
"""
import random
import sys

from reference import histories, keyring, store
from reference.histories import ASKED, COMPACT, Steps
from reference.keyring import rows_of
from reference.program import fingerprint, folder, key, run


def end(done):
    return done.returncode, done.stderr


def moved(sides, steps):
    """The files that the program leaves of these by these steps, and those that they should be."""
    with folder() as where:
        store.write_sides(where, sides)
        done = run("".join(step.given for step in steps), where=where)
        left = store.read_sides(where)
        again = run(ASKED, ["--workers", "4"], where)
    due = histories.files(sides, steps)[-1]
    yield "the run", end(done), (0, b"")
    yield "the files", left, due
    yield "what they show", (again.returncode, again.stdout, again.stderr), (0, histories.shows(store.shown(*due).state), b"")


def at_random():
    """Sessions, and the same with a run for each command, as a word where it is one."""
    for seed in range(12):
        steps, _ = Steps(random.Random(seed), made=80, compactions=0.4).some(histories.NEW, 12)
        yield from moved((b"", b""), steps)
        with folder() as where:
            for number, due in enumerate(histories.files((b"", b""), steps)):
                if number:
                    step = steps[number - 1]
                    done = run("", ["compact"], where) if step is COMPACT else run(step.given, where=where)
                else:
                    done = run("", ["list"], where)
                yield f"seed {seed}, run {number}", (end(done), store.read_sides(where)), ((0, b""), due)


def sizes():
    """Images that fill their pages but for a few bytes, wholly, and pass them by a few."""
    for pages in (1, 2, 3):
        for more in (-1, 0, 1, 2):
            state = keyring.opening()
            small = len(store.image_bytes(histories.after(histories.NEW, of_text(1)).state, {}))
            step = of_text(pages * store.CONTENT + more - small + 1)
            state = histories.after(histories.NEW, step).state
            image = store.image_bytes(state, rows_of(state))
            yield "the image", (len(image), store.pages_of(image)), (pages * store.CONTENT + more, pages + (more > 0))
            yield from moved((b"", b""), [step, COMPACT, COMPACT, histories.date(5)])


def of_text(size):
    """The import of a key whose user ID has so many bytes."""
    return histories.keys(key("A", text="x" * size))


def left_behind():
    """On the other side lies an older base, a torn one, nothing or anything, behind a closed gate or in too few bytes."""
    chance = random.Random(7)
    steps = [histories.trust("A", "u"), histories.sample(7, 60)]
    shown = histories.files((b"", b""), [COMPACT, *steps])[-1][1]
    older = histories.files((b"", b""), steps)[-1][0]
    longer = store.side_for(1, store.sampled(7, 200)(keyring.opening()))
    others = [b"", b"\xa5", b"\0", b"\xa5" * 23, bytes(24), bytes(20000), b"\1" * 5000, older, longer, b"\0" + older[1:], b"\0" + longer[1:], b"\xff" + chance.randbytes(9000)]
    others += [older[:size] for size in (20, 23)] + [b"\0" + older[1:size] for size in (24, 25, 100, 4119, 4120, 4121)] + [b"\0" + shown[1:], b"\0" + shown[1:6000]]
    for other in others:
        for sides in ((other, shown), (shown, other)):
            yield from moved(sides, [COMPACT])
            yield from moved(sides, [histories.trust("B", "f"), COMPACT, histories.date(7), COMPACT, histories.trust("C", "m")])


def last_epochs():
    """Up to the last epoch a store moves; then `compact` is answered, and changes nothing."""
    for epoch in (2**32, store.LAST_EPOCH - 2, store.LAST_EPOCH - 1, store.LAST_EPOCH):
        side = store.side_for(epoch, histories.after(histories.NEW, histories.sample(7, 9)).state, [histories.trust("A", "f").payload])
        for sides in ((side, b""), (b"", side), (store.side_for(5, keyring.opening()), side)):
            yield from moved(sides, [COMPACT, histories.date(5), COMPACT, COMPACT, histories.trust("A", "m")])


def questions():
    """A hundred questions what edits would change, on whom letters hang, and what was before, ahead of each step: the files are those that the steps make without them."""
    chance = random.Random(19)
    steps, _ = Steps(chance, made=8, compactions=0.2).some(histories.NEW, 20)
    with folder() as where:
        given = "".join(asked(chance, 100) + step.given for step in steps) + asked(chance, 100)
        done, due = run(given, where=where), histories.files((b"", b""), steps)[-1]
        yield "the run", (done.returncode in (0, 1), done.stderr), (True, b"")
        yield "every one is answered", len([line for line in done.stdout.splitlines() if line.startswith((b"ok", b"err"))]), 100 * (len(steps) + 1) + len(steps)
        yield "the files", store.read_sides(where), due
        run(asked(chance, 100), where=where)
        yield "the files after a run of questions alone", store.read_sides(where), due


def asked(chance, count):
    """So many questions, of which some are refused."""
    edits = [f"trust {fingerprint(name)} {letter}" for name in histories.NAMES for letter in "o-mfun"] + [f"date {date}" for date in (*histories.DATES, "x")]
    edits += ["options classic 1 3 5 2", "options pgp 2 2 1 1", "options pgp 1 2 40 3", f"delete {fingerprint('A')}"]
    users = [f"critical {fingerprint(name)} {place}" for name in histories.NAMES for place in (1, 1, 2)]
    states = [f"at {number} {query}" for number in (*range(22), 2**64 - 1, "x") for query in ("list", f"list {fingerprint('A')}", f"why {fingerprint('B')} 1", "sigs")]
    return "".join(f"{chance.choice((f'suppose {chance.choice(edits)}', chance.choice(users), chance.choice(states)))}\n" for _ in range(count))


def refused():
    """A command that is refused, and a query, leave both files."""
    with folder() as where:
        run("".join(step.given for step in (histories.sample(7, 30), COMPACT, histories.date(5))), where=where)
        sides = store.read_sides(where)
        for line in ("compact now", "check it", "list", "sigs", "export", "check", "delete 00000000000000000000000000000000000000FF", "frob"):
            done = run(f"{line}\n", where=where)
            yield line, (done.stderr, store.read_sides(where)), (b"", sides)


done = 0
for check in (at_random, sizes, left_behind, last_epochs, questions, refused):
    for name, found, wanted in check():
        if found != wanted:
            sys.exit(f"compaction: {check.__name__}: {name}: {found!r} in place of {wanted!r}"[:4000])
        done += 1
print(f"compaction: {done} ok")
