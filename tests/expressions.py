#!/usr/bin/env python3
"""Tries regular expressions, as trust signatures have them, on the built program.

expressions.py PROGRAM: rows that were worked out by hand, and expressions at random, each asked of a text. Those at random are asked of a second
reading too, and, where the machine has a C compiler, of the C library's matcher, which is older than the standard's: where that answers otherwise
one of the reasons stands, which docs/GNUPG.md has.
"""
import collections
import pathlib
import random
import re
import shutil
import subprocess
import tempfile

from reference import expression
from reference.program import run, trust

# how many expressions are made, of how many texts each is asked, and how many of these one keyring has
AT_RANDOM = 6000
TEXTS = 4
AT_ONCE = 4000

EXAMPLE = rb"<[^>]+[@.]example\.org>$"
# a regular expression, and the user IDs that it admits and those that it doesn't
SCOPES = (
    (EXAMPLE, b"N <a@example.org>|N <a@x.EXAMPLE.org>|<x.example.org>|<@@example.org>|<a> <b@example.org>|<b@example.org <b@example.org>|<<@example.org>"
     b"|<a<@example.org>|<\xff@example.org>",
     b"N <a@evilexample.org>|a@example.org|<a@example.org> N|<a@example.org|<a@example.net>|<a@example.org.net>|<a@example-org>|<@example.org>|<.example.org>"
     b"|<example.org>|<a@example.org>>|<a>@example.org>|<a>b@example.org>|ample.org>|xample.org>|example.org>|@example.org>|a@example.org>|>"),
    (rb"<[^>]+[@.]my\-site\.org>$", b"<a@my-site.org>", b"<a@my_site.org>"),
    (rb"<[^>]+[@.]my-site\.org>$", b"<a@my-site.org>", b"<a@my.site.org>"),
    (rb"<[^>]+[@.]EXAMPLE\.ORG>$", b"<a@example.org>", b"<a@example>"),
    (rb"<[^>]+[@.]a_b\_1>$", b"<a@A_B_1>", b"<a@a_b>"),
    (rb"<[^>]+[@.]a\\>$", b"<x@a\\>", b"<x@a>"),
    (rb"<[^>]+[@.]\\\.>$", b"<x@\\.>", b"<x@.>"),
    (rb"<[^>]+[@.]\\.>$", b"<x@\\.>", b"<x@a.>"),
    (rb"<[^>]+[@.]a\>$", b"<x@a>", b"<x@a\\>"),
    (rb"<[^>]+[@.]a\>>$", b"<x@a>>", b"<x@a>"),
    (rb"<[^>]+[@.]a\@b>$", b"<x.a@b>", b"<x@b>"),
    (rb"<[^>]+[@.]a\[>$", b"", b"<x@a{>"),
    (rb"<[^>]+[@.]a\@>$", b"", b"<x@a`>"),
    (b"<[^>]+[@.]\\\xc3\\\x84>$", b"<x@\xc3\x84>", b"<x@\xc3\xa4>"),
    (b"<[^>]+[@.]\xc3\x84>$", b"<x@\xc3\x84>", b"<x@\xc3\xa4>"),
    (rb"<[^>]+[@.]\example>$", b"<a@example>", b"<a@xample>"),
    (rb"<[^>]+[@.]\1>$", b"<a@1>", b"<a@2>"),
    (rb"<[^>]+[@.]example.org>$", b"<a@example.org>|<a@exampleXorg>", b"<a@exampleorg>"),
    (rb"<[^>]+[@.]>$", b"<a@>", b"<a>"),
    (rb"<[^>]+[@.]org>", b"<a@org>|<a@org> a", b"<a@net>"),
    (rb"<[^>]+[@]org>$", b"<a@org>", b"<a.org>"),
    (rb"<[^>]+[@.]>", b"<a@>", b"<a>"),
    (rb"<[^>]+[@.$", b"", b"<a@.$"),
    (rb"(lists|dev)\.example", b"D <d@dev.Example.org>", b"D <d@devXexample.org>"),
    (b"^A+$", b"aaa", b"aab"),
    (b"[]a-]", b"-|a|]", b"b"),
    (b"[^]]", b"x", b"]"),
    (b"[a-]", b"-", b"b"),
    (b"[--a]", b"0|-", b"+"),
    (b"[a-b-c]", b"-|c", b"d"),
    (b"[^a-c]", b"d", b"B"),
    (b"[^^]", b"a", b"^"),
    (b"^[A-]b]$", b"-b]", b"B"),
    (b"x**", b"", b"x"),
    (b"[z-a]", b"", b"x"),
    (b"(x", b"", b"x"),
    (b"x)", b"", b"x"),
    (b"a|*", b"", b"a"),
    (b"[]", b"", b"]"),
    (b"a\\", b"", b"a"),
    (b"(|a)", b"b", b""),
    (b"x|", b"b", b""),
    (b"|", b"b", b""),
    (b"()", b"b", b""),
    (b"[^", b"", b"a"),
    (b"[^]", b"", b"a|]"),
    (b"[a-", b"", b"a|-"),
    (b"a$b", b"", b"a$b|ab"),
    (b"a.c", b"a.c|abc", b"ac"),
    (b"colou?r", b"color|Colour", b"colouur"),
    (b"a^b", b"", b"ab"),
    (b"^(^a)*$", b"a", b"aa"),
    (b"^(a*)*b$", b"aab", b"aac"),
    (b"^a|b$", b"ax|xb", b"xax"),
)


def quoted(text):
    return text.replace(b"\\", b"\\x5c").replace(b":", b"\\x3a").replace(b"\n", b"\\x0a")


def block(number, text, *certs):
    """A key with one user ID of any bytes."""
    head = f"pub:-:255:22:{number:016X}:1000:::-:::scSC:\nfpr:::::::::{number:040X}:\nuid:-::::1000::::".encode()
    return head + quoted(text) + b":\n" + b"".join(certs)


def sig(issuer, trusts="", scope=b""):
    return f"sig:!:::{issuer:016X}:2000::{trusts}:".encode() + quoted(scope) + b"::13x:\n"


def asked(name, rows):
    """A is believed wholly and certifies an introducer for each regular expression, who certifies its user ID: those that are admitted are valid."""
    blocks, wanted = [block(0xAA, b"A")], {}
    for number, (scope, user, admitted) in zip(range(0x100, 0x10000, 2), rows):
        blocks.append(block(number, b"Introducer", sig(0xAA, "1 120", scope)))
        blocks.append(block(number + 1, user, sig(number)))
        wanted[f"{number + 1:016X}".encode()] = b"f" if admitted else b"-"
    told = run(b"import\n" + b"".join(blocks) + b".\n" + trust("A", "u").encode() + b"list\n").stdout
    found = {f[4]: f[1] for f in (line.split(b":") for line in told.split(b"\n")) if f[0] == b"pub"}
    for (scope, user, _), (number, letter) in zip(rows, wanted.items()):
        yield f"{user!r} in the scope {scope!r}{name}", found.get(number), letter


def scopes():
    yield from asked("", [(scope, user, admitted) for scope, yes, no in SCOPES for users, admitted in ((yes, True), (no, False)) for user in users.split(b"|") if user])


class Scopes:
    """Regular expressions, and bytes that look like some, at random."""

    def __init__(self, chance):
        self.chance = chance

    def any(self):
        return bytes(self.chance.choice(b"ab|()[]-^$.*+?\\AB@{:") for _ in range(self.chance.randrange(1, 12)))

    def range(self):
        inside = b"".join(self.chance.choice((b"a", b"b", b"a-b", b"@-B", b"^", b"-")) for _ in range(self.chance.randrange(1, 4)))
        return b"[" + self.chance.choice((b"", b"^")) + self.chance.choice((b"", b"", b"]")) + inside + b"]"

    def atom(self, depth):
        plain = (b"a", b"b", b"B", b"@", b".", b"^", b"$", b"\\.", b"\\a", b"{", b"\n")
        kind = self.chance.randrange(10)
        return b"(" + self.made(depth - 1) + b")" if kind < 2 and depth else self.range() if kind < 4 else self.chance.choice(plain)

    def made(self, depth=3):
        """One by the grammar."""
        def branch():
            return b"".join(self.atom(depth) + self.chance.choice((b"", b"", b"", b"*", b"+", b"?")) for _ in range(self.chance.randrange(4)))
        return b"|".join(branch() for _ in range(self.chance.choice((1, 1, 1, 2, 3))))

    def rows(self):
        """One, and the texts that it is asked of: for those behind the first the program keeps what it worked out."""
        scope = self.any() if self.chance.random() < 0.4 else self.made()
        for _ in range(TEXTS):
            user = bytes(self.chance.choice(b"aabbABx.@-]^\n") for _ in range(self.chance.randrange(13)))
            yield scope, user, not scope or expression.admits(scope, user)


def of_many_states():
    """An expression by which nearly each byte of a text comes to another state, of which there are more than the program keeps."""
    chance = random.Random(19)
    scope = b"(a|b)*a" + b"(a|b)" * 10 + b"$"
    users = [bytes(chance.choice(b"ab") for _ in range(60)) for _ in range(100)]
    yield from asked(", of many states", [(scope, user, expression.admits(scope, user)) for user in users])


def scopes_at_random(made):
    for start in range(0, len(made), AT_ONCE):
        yield from asked(", at random", made[start:start + AT_ONCE])


# why the C library's matcher answers otherwise: what an expression and its text have where it does
REASONS = {
    "a repetition behind an anchor": lambda scope, text: re.search(rb"[$^][*+?]", scope),
    "an anchor, and a newline in the text": lambda scope, text: b"\n" in text and re.search(rb"[$^]", scope),
    "a backslash in front of a letter": lambda scope, text: re.search(rb"\\[A-Za-z]", scope),
    "a brace": lambda scope, text: b"{" in scope,
    "a name of a class of bytes": lambda scope, text: re.search(rb"\[[.:=]", scope),
    "a repetition of a repetition": lambda scope, text: re.search(rb"[*+?][*+?]", scope),
    "a closing parenthesis that none opens": lambda scope, text: has_loose_end(scope),
    "a hyphen behind a range": lambda scope, text: any(re.search(rb".-.-", inside) for inside in ranges(scope)),
    "a range whose ends are in another order without their case": lambda scope, text: has_turned_range(scope),
}


def has_loose_end(scope):
    depth = 0
    for byte in re.sub(rb"(?s)\\.|\[\^?.[^]]*\]", b"", scope):
        depth += {ord("("): 1, ord(")"): -1}.get(byte, 0)
        if depth < 0:
            return True
    return False


def ranges(scope):
    return re.findall(rb"\[\^?(\]?[^]]*)\]", scope)


def has_turned_range(scope):
    ends = [pair for inside in ranges(scope) for pair in re.findall(rb"(?s)(?=(.)-(.))", inside)]
    return any((first <= last) != (first.upper() <= last.upper()) for first, last in ends)


def of_the_library(rows, where):
    """What the C library's matcher answers of each row: whether it finds a match, or nothing where it can't read the expression."""
    program = pathlib.Path(where, "regcomp")
    source = pathlib.Path(__file__).resolve().parent / "reference" / "regcomp.c"
    subprocess.run([shutil.which("cc") or "gcc", "-o", program, source], check=True)
    asked_of = "".join(f"{scope.hex()} {text.hex()}\n" for scope, text, _ in rows)
    told = subprocess.run([program], input=asked_of.encode(), capture_output=True, check=True, timeout=120).stdout.split()
    return [{b"1": True, b"0": False, b"-": None}[answer] for answer in told]


def beside_the_library(made):
    """Whether each difference has a reason."""
    if not (shutil.which("cc") or shutil.which("gcc")):
        print("expressions: the C library's matcher was not asked: no C compiler")
        return
    with tempfile.TemporaryDirectory() as where:
        rows = [row for row in made if row[0]]
        reasons = collections.Counter()
        for (scope, text, admitted), found in zip(rows, of_the_library(rows, where), strict=True):
            read = expression.read(scope) is not None
            differs = (found is None) == read or found is not None and found != admitted
            reason = next((name for name, holds in REASONS.items() if holds(scope, text)), None)
            if differs:
                reasons[reason] += 1
                yield f"the C library's matcher finds {found} of {text!r} in {scope!r}, and has no reason to", reason is not None, True
    print(f"expressions: the C library's matcher answers {sum(reasons.values())} of {len(rows)} otherwise: {dict(reasons)}")


def main():
    chance = Scopes(random.Random(18))
    made = [row for _ in range(AT_RANDOM) for row in chance.rows() if len(row[0]) <= expression.MOST]
    failed = tried = 0
    for what, told, wanted in (row for rows in (scopes(), of_many_states(), scopes_at_random(made), beside_the_library(made)) for row in rows):
        tried += 1
        if told != wanted:
            failed += 1
            print(f"expressions: {what}: {told!r}, and not {wanted!r}")
    print(f"expressions: {tried} answers, {failed} told otherwise")
    return 1 if failed else 0


if __name__ == "__main__":
    raise SystemExit(main())
