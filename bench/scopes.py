"""Counting a whole keyring under regular expressions, beside the form of a domain; and imports that are made to be slow by one."""
import os
import random
import re
from collections.abc import Callable
from typing import NamedTuple

from measure import Failed, in_turn, megabytes, ran, session, shown, table, times
from shapes import DATE, fingerprint, head, user, written

ROUNDS, ROOT = 5, 1
# bytes of user IDs that are made to be slow, and how many of them there are
SLOW = {60_000: 50, 600: 5000}


class Scopes(NamedTuple):
    """So many introducers, the scope of each, and what stands in front of `example.org` in the user IDs that it admits."""

    introducers: int
    scope: Callable[[int], str]
    domain: Callable[[int], str] = lambda number: "lists."


DOMAIN = "one introducer, the form of a domain"
MANY_DOMAINS = "1,000 introducers, each with a domain"
SCOPES = {
    DOMAIN: Scopes(1, lambda number: r"<[^>]+[@.]example\.org>$"),
    "one introducer, `@(mail|lists)\\.example\\.org>$`": Scopes(1, lambda number: r"@(mail|lists)\.example\.org>$"),
    MANY_DOMAINS: Scopes(1000, lambda number: rf"<[^>]+[@.]d{number}\.example\.org>$", lambda number: f"lists.d{number}."),
    "1,000 introducers, each with an expression": Scopes(1000, lambda number: rf"@(mail|lists)\.d{number}\.example\.org>$", lambda number: f"lists.d{number}."),
}
# the worst that were found: by these a text of two letters comes to a new state at almost each byte
WORST = {"`a` and 253 times `.`": "a" + "." * 253 + "$", "`(a|b)*a` and `(a|b)` over and over": "(a|b)*a" + "(a|b)" * 49 + "$",
         "`a`, 50 times `(.?.)`, and `c`": "a" + "(.?.)" * 50 + "c$"}


# chains of introducers, each of whom delegates to the next, and the scope of each along a chain
CHAINS, LENGTH = 200, 5
HOST = "b.a.lists.example.org"
NO_SCOPES = "no scopes"
CHAINED = {
    NO_SCOPES: [""] * LENGTH,
    "each introducer with one domain": [r"<[^>]+[@.]example\.org>$"] * LENGTH,
    "each with a part of the domain before": [rf"<[^>]+[@.]{re.escape(HOST.split('.', 4 - place)[-1])}>$" for place in range(LENGTH)],
}


def sig(issuer, trusts="", scope=""):
    return f"sig:!:::{issuer:016X}:{DATE}::{trusts}:{scope.replace(chr(92), chr(92) + 'x5c')}::13x:\n"


def keyring(count, scopes):
    """A root, those to whom it delegates with their scopes, and keys that these certify."""
    yield head(ROOT) + user("Root")
    for number in range(scopes.introducers):
        yield head(2 + number) + user(f"Introducer {number}") + sig(ROOT, "1 120", scopes.scope(number))
    for place in range(count):
        number = place % scopes.introducers
        address = f"k{place}@{scopes.domain(number)}example.org"
        yield head(2 + scopes.introducers + place) + user(f"Key {place} <{address}>") + sig(2 + number)


def chained(count, scopes):
    """A root, chains of introducers from it on with these scopes, and keys that the last of each chain certify."""
    yield head(ROOT) + user("Root")
    for number in range(CHAINS * LENGTH):
        delegator = 1 + number if number % LENGTH else ROOT
        yield head(2 + number) + user(f"Introducer {number} <i{number}@{HOST}>") + sig(delegator, f"{LENGTH} 120", scopes[number % LENGTH])
    for place in range(count):
        last = 1 + (place % CHAINS + 1) * LENGTH
        yield head(2 + CHAINS * LENGTH + place) + user(f"Key {place} <k{place}@{HOST}>") + sig(last)


def counted(bench, keys, introducers):
    """Seconds of counting everything anew, which a change of the options asks for."""
    listing = written(bench.path("scopes"), keys)
    made = bench.store("scoped", (["trust", fingerprint(ROOT), "u"], None), (["options", "pgp", "1", "3", "8", "2"], None), (["import"], listing))
    with session([bench.program], made) as program:
        def twice():
            return (program.accept("options pgp 1 3 8 1\n") + program.accept("options pgp 1 3 8 2\n")) / 2

        valid = bench.keys + introducers
        if f"tally:{valid + 1}:1:{valid}:" not in program.ask("check\n")[1].decode():
            raise Failed(f"{valid} keys are not all valid")
        return in_turn(twice, rounds=ROUNDS)[0]


def made_slow(scope, length, count):
    """Keys whose user IDs are of two letters and so long, by an introducer with this scope."""
    chance = random.Random(1)
    yield head(ROOT) + user("Root") + head(2) + user("Introducer") + sig(ROOT, "1 120", scope)
    for place in range(count):
        yield head(3 + place) + user("".join(chance.choices("ab", k=length))) + sig(2)


def part(bench):
    """Counting under each kind of scope, and imports under the worst."""
    seconds = {name: counted(bench, keyring(bench.keys, scopes), scopes.introducers) for name, scopes in SCOPES.items()}
    rows = [(name, shown(took), times(took, seconds[DOMAIN if SCOPES[name].introducers == 1 else MANY_DOMAINS])) for name, took in seconds.items()]
    table(f"`options` in an open session, {bench.keys:,} keys that introducers certify", ("scopes", "counted", "times the domains"), rows)
    took = {name: counted(bench, chained(bench.keys, scopes), CHAINS * LENGTH) for name, scopes in CHAINED.items()}
    rows = [(name, shown(one), times(one, took[NO_SCOPES])) for name, one in took.items()]
    table(f"The same under {CHAINS} chains of {LENGTH} introducers", ("scopes", "counted", "times those without"), rows)
    for length, count in SLOW.items():
        slow_imports(bench, length, count)


def slow_imports(bench, length, count):
    rows = []
    for name, scope in {"the form of a domain": r"<[^>]+[@.]example\.org>$", **WORST}.items():
        listing = written(bench.path("slow"), made_slow(scope, length, count))

        def imported():
            return ran([bench.program, "import"], listing, bench.store("slowed", (["trust", fingerprint(ROOT), "u"], None)))

        took, size = in_turn(imported, rounds=ROUNDS)[0], os.path.getsize(listing)
        rows.append((name, megabytes(size), shown(took), f"{took / size * 1e9:.1f} ns", took / size))
    columns = ("scope", "size", "import", "a byte", "times that of a domain")
    table(f"Imports of {count:,} user IDs of {length:,} bytes", columns, [(*row[:4], times(row[4], rows[0][4])) for row in rows])
