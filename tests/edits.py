#!/usr/bin/env python3
"""Makes edits of all kinds at random in sessions on small keyrings, and recounts each state from nothing.

edits.py PROGRAM [--time SECONDS] [--edits NUMBER] [--seed NUMBER]: sessions are made until the time is over or there were so many edits. After
each edit, and each `compact` between them, the state, as `sigs` and `export` print it, is given to another process with an empty store and to a second
reading of the rules, and what `list`, `sigs`, `export`, `check` and some `why`, `suppose` and `critical` tell is compared with both. Some `at`
ask of states before, which are listed as they were then. A session's store is reopened too. The first difference ends the check and leaves the session's commands in a file.
"""
import argparse
import os
import random
import sys
import tempfile
import time
from concurrent.futures import ThreadPoolExecutor

from reference import earlier, histories, keyring, supposing
from reference.program import folder, run

# no store here has to outlive a stop of the machine; a session that is left may
KEPT = tempfile.gettempdir()
tempfile.tempdir = "/dev/shm" if os.path.isdir("/dev/shm") else None
NAMES, EDITS = 12, 40
DATES = (1000, 1002, 1003, 1004, 1005)
SCOPES = ("", "", "", "", "<[^>]+[@.]a\\x5c.example>$", "<[^>]+[@.]example>$", "a.example", "(0|1)@[^b]", "[ab]\\x5c.example>$", "a**")


def fingerprint(name, other=False):
    """Of a key with that key ID, or of another one with the same key ID; every third is one of 32 bytes."""
    front = "F" if other else "0"
    return f"{name:016X}{front * 48}" if name % 3 == 0 else f"{front * 24}{name:016X}"


class Edits:
    """Edits that hang on earlier ones only in the date and the options, which it keeps."""

    def __init__(self, chance):
        self.chance = chance
        self.date, self.options = 0, keyring.Options()
        # from the second key on, which is the user's own, each up to this one delegates to the next
        self.chain = chance.choice((0, 3, 4, 5, 6, 7))

    def name(self):
        return self.chance.randrange(1, NAMES + 1)

    def expiry(self):
        return self.chance.choice((*[""] * 30, *DATES))

    def certification(self, name):
        is_linked = 2 < name <= self.chain and self.chance.random() < 0.9
        issuer = self.chance.randrange(name, NAMES + 1) if is_linked else self.chance.choice((1, 2, self.name(), self.name()))
        record, kind = self.chance.choice((*[("sig", "1" + c + x) for c in "01233" for x in "xl"], ("rev", "30x")))
        trusts = self.chance.choice(("", "", "1 120", "1 60", "2 120", "3 60", "2 30", "6 120"))
        return self.line(issuer, self.chance.randrange(1, 5), trusts, record, kind)

    def line(self, issuer, made, trusts, record="sig", kind="13x", scopes=SCOPES):
        """A certification with a scope where it is a trust signature, which may name its issuer's fingerprint, or another's."""
        scope = self.chance.choice(scopes) if trusts else ""
        own, others = fingerprint(issuer), (fingerprint(issuer, other=True), fingerprint(self.name()))
        named = self.chance.choice((*[""] * 6, *[own] * 4, *others))
        return f"{record}:!:::{issuer:016X}:{made}:{self.expiry()}:{trusts}:{scope}::{kind}:" + (f":{named}:" if named else "") + "\n"

    def key(self, name):
        # those on whom the others rest are mostly live
        is_steady = name <= max(2, self.chain) and self.chance.random() < 0.8
        revoked, expires = ("-", "") if is_steady else (self.chance.choice("-" * 15 + "r"), self.expiry())
        lines = [f"pub:{revoked}:255:22:{name:016X}:1:{expires}::-:::scSC:\n", f"fpr:::::::::{fingerprint(name, self.chance.random() < 0.03)}:\n"]
        for user in range(self.chance.choice((1, 1, 1, 2) if is_steady else (1, 1, 1, 2, 0))):
            revoked, expires = ("-", "") if is_steady else (self.chance.choice("-" * 15 + "r"), self.expiry())
            lines.append(f"uid:{revoked}::::1:{expires}:::K {name} <{user}@{self.chance.choice('ab')}.example>:\n")
            lines += [self.certification(name) for _ in range(self.chance.choice((0, 2, 4, 6)))]
            if 2 < name <= self.chain and self.chance.random() < 0.9:
                lines.append(self.line(name - 1, 5, f"{self.chain + 2 - name} 120", scopes=("",) * 8 + SCOPES))
        return "".join(lines)

    def imported(self):
        names = self.chance.sample(range(1, NAMES + 1), self.chance.choice((1, 1, 1, 2, 4, NAMES)))
        return "import\n" + "".join(self.key(name) for name in names) + ".\n"

    def begun(self):
        """All keys at once, and ownertrust that makes introducers of some: what a session begins with."""
        owned = "".join(f"{fingerprint(name)}:{6 if name < 3 else self.chance.choice((4, 5))}:\n" for name in range(1, NAMES + 1) if name % 4)
        return ["ownertrust\n" + owned + ".\n", "import\n" + "".join(self.key(name) for name in range(1, NAMES + 1)) + ".\n"]

    def owned(self):
        numbers = (0, 2, 3, 4, 4, 5, 5, 6, 128, 132, 133)
        return "ownertrust\n" + "".join(f"{fingerprint(self.name())}:{self.chance.choice(numbers)}:\n" for _ in range(self.chance.choice((1, 2, 5)))) + ".\n"

    def next(self):
        if self.chance.random() < 0.06:
            return "compact\n"
        kind = self.chance.random()
        name = self.name()
        fpr = fingerprint(name, self.chance.random() < 0.05)
        if kind < 0.25:
            return self.imported()
        if kind < 0.32:
            return self.owned()
        if kind < 0.58:
            return self.trusted(name, fpr)
        if kind < 0.62:
            return f"{self.chance.choice(('disable', 'enable'))} {fpr}\n"
        if kind < 0.68:
            return f"delete {fpr}\n"
        if kind < 0.90:
            self.date = self.any_date()
            return f"date {self.date}\n"
        if kind < 0.97:
            self.options = self.any_options()
            return histories.options(self.options).given
        return f"sample {self.chance.choice((7, 8))} {self.chance.randrange(1, 13)}\n"

    def trusted(self, name, fpr):
        return f"trust {fpr} {self.chance.choice('uuuf' if name < 3 else '-qnmmmfffu')}\n"

    def any_date(self):
        return self.chance.choice((0, *DATES * 2, 2**32 - 1))

    def any_options(self):
        ranges = ((True, True, False), (1, 1, 2), (2, 3), (1, 2, 3, 5, 5, 7, 7, 255), (1, 2, 3))
        return keyring.Options(*map(self.chance.choice, ranges))

    def supposed(self):
        """An edit that may be supposed."""
        name = self.name()
        edit = self.trusted(name, fingerprint(name, self.chance.random() < 0.05))
        return self.chance.choice((edit, edit, f"date {self.any_date()}\n", histories.options(self.any_options()).given))

    def questions(self):
        """Explanations first; what is told after all of them shows that none changed anything."""
        asked = [f"why {fingerprint(name)} {self.chance.choice((1, 1, 2))}\n" for name in range(1, NAMES + 1)]
        asked += [f"suppose {self.supposed()}" for _ in range(3)]
        asked += [f"critical {fingerprint(self.name())} {self.chance.choice((1, 1, 1, 2))}\n" for _ in range(2)]
        return "".join(asked) + "check\nlist\nexport\n"

    def earlier(self, most):
        """Questions of states before, after up to one more edit than there can be: how many there are since the base, the replies tell."""
        asked = ["list", "list", *(f"why {fingerprint(self.name())} {self.chance.choice((1, 1, 2))}" for _ in range(2))]
        return "".join(f"at {self.chance.randrange(most + 2)} {query}\n" for query in asked)


def replies(told):
    """Replies, each up to the line that ends it."""
    found, lines = [], []
    for line in told.decode().splitlines(keepends=True):
        lines.append(line)
        if line.startswith(("ok", "err")):
            found.append("".join(lines))
            lines = []
    return found


def recounted(date, options, sigs, export, questions):
    """The replies of an empty store to which the state is given, ownertrust first; and those that are wanted."""
    given = f"ownertrust\n{export.removesuffix('ok' + chr(10))}.\nimport\n{sigs.removesuffix('ok' + chr(10))}.\n"
    given += histories.options(options).given + histories.date(date).given
    return replies(run(given + "sigs\nexport\n" + questions).stdout)[4:]


def read_again(date, options, sigs, export, questions):
    """The replies of a second reading of the rules on the same state."""
    state = histories.printed(sigs.encode(), export.encode(), date, options)
    rows, found = keyring.rows_of(state), [keyring.sigs(state) + b"ok\n", keyring.export(state) + b"ok\n"]
    for command, *words in map(str.split, questions.splitlines()):
        if command == "why":
            found.append(keyring.why(state, rows, bytes.fromhex(words[0]), int(words[1])))
        elif command == "critical":
            found.append(supposing.critical(state, bytes.fromhex(words[0]), int(words[1])))
        elif command == "suppose":
            found.append(supposing.suppose(state, words))
        else:
            found.append({"check": keyring.tally, "list": keyring.listed, "export": keyring.export}[command](state) + b"ok\n")
    return [reply.decode() for reply in found]


def asked_before(commands, states, groups):
    """What differs in the replies of earlier states: each is listed as it was then, and explained as a second reading explains it."""
    since = [(keyring.opening(), keyring.listed(keyring.opening()).decode() + "ok\n")]
    for number, (command, (date, options, questions, asked), group) in enumerate(zip(commands, states, groups), 1):
        state = histories.printed(group[1].encode(), group[2].encode(), date, options)
        now = state, group[2 + questions.count("\n") - 1]
        since = since if group[0].startswith("err") else [now] if command.startswith("compact\n") else [*since, now]
        for question, told in zip(asked.splitlines(), group[3 + questions.count("\n"):]):
            _, count, *query = question.split()
            if query == ["list"] and int(count) < len(since):
                wanted = since[int(count)][1]
            else:
                wanted = earlier.at([state for state, _ in since], int(count), *query).decode()
            if told != wanted:
                yield f"after edit {number}, {question}", [told], [wanted]


def session(seed, pool):
    """One session; its commands, how many edits were refused, explanations that have an introducer and supposed edits that change a letter, and what differs."""
    edits = Edits(random.Random(seed))
    commands, states = [], []
    begun = edits.begun()
    for number in range(EDITS):
        edit = begun[number] if number < len(begun) else edits.next()
        states.append((edits.date, edits.options, edits.questions(), edits.earlier(number + 1)))
        commands.append(edit + "sigs\nexport\n" + "".join(states[-1][2:]))
    with folder() as store:
        told = replies(run("".join(commands), where=store).stdout)
        again = replies(run("sigs\nexport\n" + "".join(states[-1][2:]), where=store).stdout)
    count, more = 3 + "".join(states[0][2:]).count("\n"), states[0][3].count("\n")
    if len(told) != EDITS * count:
        return commands, 0, 0, 0, [("the session", [f"{len(told)} replies\n"], [f"{EDITS * count} replies\n"])]
    groups = [told[i * count : (i + 1) * count] for i in range(EDITS)]
    counted = pool.map(lambda both: recounted(*both[0][:2], both[1][1], both[1][2], both[0][2]), zip(states, groups))
    wrong = [(f"after edit {i + 1}", group[1:-more], wanted) for i, (group, wanted) in enumerate(zip(groups, counted)) if group[1:-more] != wanted]
    for number, (state, group) in enumerate(zip(states, groups), 1):
        wanted = read_again(*state[:2], *group[1:3], state[2])
        wrong += [(f"after edit {number}, by a second reading", group[1:-more], wanted)] if group[1:-more] != wanted else []
    wrong += asked_before(commands, states, groups)
    if again != groups[-1][1:]:
        wrong.append(("reopened", again, groups[-1][1:]))
    refused = sum(group[0].startswith("err") for group in groups)
    reasons, changes = (sum(line in reply for group in groups for reply in group) for line in ("\nrow:", "change:"))
    return commands, refused, reasons, changes, wrong


def first_difference(told, wanted):
    return next((f"told\n{a}recounted\n{b}" for a, b in zip(told, wanted) if a != b), f"{len(told)} replies, and {len(wanted)} recounted")


def main():
    parser = argparse.ArgumentParser()
    parser.add_argument("program")
    parser.add_argument("--time", type=float, default=8)
    parser.add_argument("--edits", type=int, default=10**9)
    parser.add_argument("--seed", type=int, default=1)
    asked = parser.parse_args()
    begun, sessions, refusals, explained, changing, compactions = time.monotonic(), 0, 0, 0, 0, 0
    with ThreadPoolExecutor(2) as pool:
        while sessions == 0 or (time.monotonic() - begun < asked.time and sessions * EDITS < asked.edits):
            seed = asked.seed * 1_000_000 + sessions
            commands, refused, reasons, changes, wrong = session(seed, pool)
            if wrong:
                with tempfile.NamedTemporaryFile("w", dir=KEPT, prefix="edits", suffix=".session", delete=False) as kept:
                    kept.write("".join(commands))
                place, told, wanted = wrong[0]
                sys.exit(f"edits: session {seed}, {place}: {first_difference(told, wanted)}its commands are in {kept.name}")
            sessions, refusals, explained, changing = sessions + 1, refusals + refused, explained + reasons, changing + changes
            compactions += sum(command.startswith("compact\n") for command in commands)
    print(
        f"edits: {sessions * EDITS} edits at random in {sessions} sessions from seed {asked.seed}, {compactions} of them compactions and {refusals} refused: "
        f"each state has the letters that it has when counted from nothing and by a second reading, {explained} explanations the same introducers and counts, "
        f"and {changing} supposed edits the same changes"
    )


if __name__ == "__main__":
    main()
