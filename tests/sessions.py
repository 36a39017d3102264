#!/usr/bin/env python3
"""Feeds whole sessions to the built program, each on an empty store, and compares what it tells, byte for byte, and its exit status.

The sessions are those of this file and those of examples/. Each is run a second time command by command, a run a command on one store: it tells the same.
"""
import pathlib
import sys

from reference.program import USAGE, by, fingerprint, folder, imported, key, key_id, letters, run, short, trust

TRU = "tru::1:0:0:3:1:5\n"


def lines(name, validity, owner, caps="scSC"):
    """A key's lines as they are listed."""
    return (
        f"pub:{validity}:255:22:{key_id(name)}:1000:::{owner}:::{caps}:\n"
        f"fpr:::::::::{fingerprint(name)}:\n"
        f"uid:{validity}::::1000::::{name} <{name.lower()}@example.org>:\n"
    )


def change(name, old, new):
    """The line of a letter that would be another, on the first user ID of a key."""
    return f"change:{key_id(name)}:1:{old}:{new}:\n"


def listed(*keys, tru=TRU):
    return tru + "".join(lines(*k) for k in keys) + "ok\n"


A, B, C, D, E, F = map(fingerprint, "ABCDEF")
# of another key with A's key ID
ANOTHER = "11" + "0" * 36 + "AA"
NO_FINGERPRINTS = (ANOTHER[1:], ANOTHER + "0", "G" * 40, ANOTHER[:39] + " ", "0" * 63)
D_ELSEWHERE = key("D", by("C", 4000), text="D <d@other.net>")
ORG, NET, LISTS = (f"<[^>]+[@.]{domain}>$" for domain in ("example\\x5c.org", "other\\x5c.net", "lists\\x5c.example\\x5c.org"))
TWO_KEYS = trust("A", "u") + imported(key("A"), key("B", "A"))
TWO_TOLD = "ok\nok keys 2 kept 1 passed 0\n"
TWO_LISTED = listed(("A", "u", "u"), ("B", "f", "-"))
OTHER_A = f"pub:-:255:22:00000000000000AA:1000:::-:::scSC:\nfpr:::::::::{ANOTHER}:\n"
# B is valid and marginally trusted, and certifies C
MARGINAL = TWO_KEYS + trust("B", "m") + imported(key("C", "B"))
MARGINAL_TOLD = TWO_TOLD + "ok\nok keys 1 kept 1 passed 0\n"
MARGINAL_LISTED = listed(("A", "u", "u"), ("B", "f", "m"), ("C", "m", "-"))
WHY_B = "why:f:00000000000000BB:1:1:0:0:0:\nrow:00000000000000AA:0:u:0:::\nby:00000000000000AA:u:\ncut:f:\nok\n"
# four who are valid and marginally trusted
FOUR = trust("A", "u") + "".join(trust(name, "m") for name in "BCDE") + imported(key("A"), *(key(name, "A") for name in "BCDE"))
FOUR_TOLD = "ok\n" * 5 + "ok keys 5 kept 4 passed 0\n"
LONG_FPR = "00000000000000AB" + "0" * 48
LONG_KEY = key("AB").replace(fingerprint("AB"), LONG_FPR)
# an edit, and the place of its first bad word in `suppose`
WRONGLY_SUPPOSED = (
    ("trust", 2), ("trust AA f", 2), (f"trust {A}", 3), (f"trust {A} x", 3), (f"trust {A} F", 3), (f"trust {A} f f", 4), ("date", 2), ("date x", 2), ("date 4294967296", 2), ("date 5 5", 3),
    ("options", 2), ("options tofu 1 3 5 2", 2), ("options pgp 0 3 5 2", 3), ("options pgp 1 1 5 2", 4), ("options pgp 1 3 0 2", 5), ("options pgp 1 3 256 2", 5), ("options pgp 1 3 5 4", 6),
    ("options pgp 1 3 5", 6), ("options pgp 1 3 5 2 1", 7),
)
# the words behind `at`, and the place of the first bad one
WRONGLY_ASKED = (
    ("", 1), ("list", 1), ("x list", 1), ("-1 list", 1), ("0x1 list", 1), ("1.0 list", 1), ("18446744073709551616 list", 1), ("x sigs zz", 1), ("1", 2), ("1 sigs", 2), (f"1 sigs {A}", 2),
    ("1 export", 2), ("1 List", 2), ("1 1", 2), ("1 at 1 list", 2), (f"0 trust {A} u", 2), (f"1 critical {A} 1", 2), ("1 list zz", 3), ("1 list list", 3), (f"1 list {A[1:]}", 3),
    (f"1 list {A} 1", 4), ("1 why", 3), ("1 why zz 0", 3), (f"1 why {A}", 4), (f"1 why {A} 0", 4), (f"1 why {A} x", 4), (f"1 why {A} 4294967296", 4), (f"1 why {A} 1 1", 5),
)
QUOTED = "a\\x3ab\\\\c\\n".encode() + bytes([0xC3, 0xA9])
EXAMPLES = pathlib.Path(__file__).resolve().parent.parent / "examples"

# a session's name, its input, what is told and the status
SESSIONS = {
    "no input": ("", "", 0),
    "an empty keyring": ("list\n", listed(), 0),
    "no newline at the end": ("list", listed(), 0),
    "ownertrust": (
        trust("A", "u") + trust("B", "m") + "export\n" + trust("A", "-") + "export\n",
        f"ok\nok\n{A}:6:\n{B}:4:\nok\nok\n{B}:4:\nok\n",
        0,
    ),
    "a key that comes before the key that certifies it": (
        imported(key("B", "A"), key("A")) + trust("A", "u") + "list\n",
        "ok keys 2 kept 1 passed 0\nok\n" + TWO_LISTED,
        0,
    ),
    "a marginal introducer": (
        TWO_KEYS + trust("B", "m") + imported(key("C", "B")) + "list\n",
        TWO_TOLD + "ok\nok keys 1 kept 1 passed 0\n" + listed(("A", "u", "u"), ("B", "f", "m"), ("C", "m", "-")),
        0,
    ),
    "a key twice": (imported(key("A"), key("A")) + "list\n", "err listing 4 RepeatedKey\n" + listed(), 1),
    "a line at the limit": ("#" * 65536 + "\nlist\n", listed(), 0),
    "a line beyond the limit": ("#" * 65537 + "\nlist\n", "err line-too-long\n" + listed(), 1),
    "a bad letter": (trust("A", "x") + "list\n", "err bad-argument 2\n" + listed(), 1),
    "no command": ("frob\nlist\n", "err unknown-command\n" + listed(), 1),
    "an unended block": ("import\n", "err unended-block\n", 1),
    "no fingerprint": (
        imported(key("A"), "pub:-:255:22:00000000000000BB:1000:::-:::scSC:\n"),
        "err listing 5 NoFingerprint\n",
        1,
    ),
    "a certification level below the least": (
        trust("A", "u") + imported(key("A"), key("B", by("A", kind="11x"))) + "list\noptions pgp 1 3 5 1\nlist\n",
        "ok\nok keys 2 kept 1 passed 0\n" + listed(("A", "u", "u"), ("B", "-", "-")) + "ok\n" + TWO_LISTED,
        0,
    ),
    "generic certifications have no level": (
        trust("A", "u") + imported(key("A"), key("B", by("A", kind="10x"))) + "list\noptions pgp 1 3 5 1\nlist\n",
        TWO_TOLD + TWO_LISTED + "ok\n" + TWO_LISTED,
        0,
    ),
    "certifications are printed": (
        TWO_KEYS + f"sigs\nsigs {B}\nlist {A}\n",
        TWO_TOLD
        + TRU + lines("A", "u", "u") + lines("B", "f", "-") + "sig:!:::00000000000000AA:2000:::::13x:\nok\n"
        + TRU + lines("B", "f", "-") + "sig:!:::00000000000000AA:2000:::::13x:\nok\n"
        + listed(("A", "u", "u")),
        0,
    ),
    "a certification that names its issuer's fingerprint": (
        trust("A", "u") + imported(key("A"), key("B", by("A", named=A.lower()))) + f"list {B}\nsigs {B}\n",
        TWO_TOLD + TRU + lines("B", "f", "-") + "ok\n" + TRU + lines("B", "f", "-") + f"sig:!:::00000000000000AA:2000:::::13x::{A}:\nok\n",
        0,
    ),
    "a certification that names another fingerprint": (
        trust("A", "u") + imported(key("A"), key("B", by("A", named=ANOTHER))) + "list\n",
        TWO_TOLD + listed(("A", "u", "u"), ("B", "-", "-")),
        0,
    ),
    "a revocation that names another fingerprint": (
        trust("A", "u") + imported(key("A"), key("B", "A", by("A", 3000, kind="30x", record="rev", named=ANOTHER))) + "list\n",
        "ok\nok keys 2 kept 2 passed 0\n" + TWO_LISTED,
        0,
    ),
    "a fingerprint of 64 digits is another than one of 40": (
        trust("A", "u") + imported(key("A"), key("B", by("A", named="00000000000000AA" + "0" * 48))) + f"sigs {B}\n",
        TWO_TOLD + TRU + lines("B", "-", "-") + f"sig:!:::00000000000000AA:2000:::::13x::00000000000000AA{'0' * 48}:\nok\n",
        0,
    ),
    "what is no fingerprint names none": (
        trust("A", "u") + imported(key("A"), key("B", *(by("A", named=named) for named in NO_FINGERPRINTS))) + f"sigs {B}\n",
        "ok\nok keys 2 kept 5 passed 0\n" + TRU + lines("B", "f", "-") + "sig:!:::00000000000000AA:2000:::::13x:\n" * 5 + "ok\n",
        0,
    ),
    "a fingerprint that is another as soon as its issuer's key is there": (
        imported(key("B", by("A", named=ANOTHER))) + trust("A", "u") + imported(OTHER_A + "uid:-::::1000::::A <a@example.org>:\n")
        + f"trust {ANOTHER} u\nlist {B}\ndelete {ANOTHER}\n" + imported(key("A")) + f"list {B}\n",
        "ok keys 1 kept 1 passed 0\nok\nok keys 1 kept 0 passed 0\nok\n" + TRU + lines("B", "f", "-")
        + "ok\nok\nok keys 1 kept 0 passed 0\n" + TRU + lines("B", "-", "-") + "ok\n",
        0,
    ),
    "a delegator whose scope is another": (
        trust("A", "u") + imported(key("A"), key("B", by("A", trusts="2 120", scope=ORG)), key("C", by("B", 3000, trusts="1 120", scope=NET)), D_ELSEWHERE)
        + f"list {D}\nwhy {C} 1\n" + imported(key("B", by("A", 2500, trusts="2 120"))) + f"list {D}\nwhy {D} 1\n",
        "ok\nok keys 4 kept 3 passed 0\n" + TRU + lines("D", "-", "-").replace("d@example.org", "d@other.net") + "ok\n"
        + f"why:f:00000000000000CC:1:0:1:0:0:\nrow:00000000000000AA:0:u:0:::\nrow:00000000000000BB:1:f:1:{ORG}:00000000000000AA:\nby:00000000000000BB:f:\ncut:f:\nok\n"
        + "ok keys 1 kept 1 passed 0\n" + TRU + lines("D", "f", "-").replace("d@example.org", "d@other.net") + "ok\n"
        + "why:f:00000000000000DD:1:0:1:0:0:\nrow:00000000000000AA:0:u:0:::\nrow:00000000000000BB:1:f:1::00000000000000AA:\n"
        + f"row:00000000000000CC:2:f:0:{NET}:00000000000000BB:\nby:00000000000000CC:f:\ncut:f:\nok\n",
        0,
    ),
    "a key of another fingerprint is not that key": (
        TWO_KEYS + f"list 11{'0' * 36}AA\nsigs {C}\n",
        TWO_TOLD + "err no-such-key\nerr no-such-key\n",
        1,
    ),
    "the last entry of a fingerprint stands": (f"ownertrust\n{A}:6:\n{A}:0:\n{A}:5:\n.\nexport\n", f"ok entries 1\n{A}:5:\nok\n", 0),
    "an unknown and disabled key": (f"disable {A}\nexport\nenable {A}\nexport\n", f"ok\n{A}:128:\nok\nok\nok\n", 0),
    "the flag changes no validity": (
        TWO_KEYS + f"disable {A}\nlist\n",
        TWO_TOLD + "ok\n" + listed(("A", "u", "u", "scSCD"), ("B", "f", "-")),
        0,
    ),
    "quoted bytes": (
        b"import\npub:-:255:22:00000000000000AA:1000:::-:::scSC:\nfpr:::::::::" + A.encode() + b":\nuid:-::::1000::::" + QUOTED + b":\n.\nlist\n",
        TRU.encode() + b"", 0,
    ),
    "a bad quote": (
        imported(key("A", text="\\xg1")),
        "err listing 3 BadQuote\n",
        1,
    ),
    "a bad trust field": (imported(key("B", by("A", trusts="256 1"))) + imported(key("B", by("A", trusts="1  60"))), "err listing 4 BadTrustField\n" * 2, 1),
    "a scope of 256 bytes": (imported(key("B", by("A", trusts="1 120", scope="<[^>]+[@.]" + "a" * 244 + ">$"))), "err listing 4 LimitReached\n", 1),
    "a short record": (imported("pub:-:255:22:00000000000000AA\n"), "err listing 1 ShortRecord\n", 1),
    "more user IDs than a key may have": (
        imported(key("A", text="0") + "".join(f"uid:-::::1000::::{n}:\n" for n in range(1, 1025))),
        "err listing 1027 LimitReached\n",
        1,
    ),
    "why, of an ultimately trusted key": (
        TWO_KEYS + f"why {A} 1\nwhy {B} 2\nwhy {C} 1\nwhy {A} 0\n",
        TWO_TOLD + "why:u:00000000000000AA:1:0:0:0:0:\ncut:u:\nok\nerr no-such-user\nerr no-such-key\nerr bad-argument 2\n",
        1,
    ),
    "each edit twice": (
        (TWO_KEYS + f"ownertrust\n{B}:4:\n.\ndisable {B}\ndate 3000\noptions pgp 1 2 5 2\n") * 2 + "list\nexport\n",
        (TWO_TOLD + "ok entries 1\nok\nok\nok\n") * 2
        + listed(("A", "u", "u"), ("B", "f", "m", "scSCD"), tru="tru::1:3000:0:2:1:5\n") + f"{A}:6:\n{B}:132:\nok\n",
        0,
    ),
    "moved to the other side and back": (
        "compact\n" + TWO_KEYS + "compact\nlist\ncompact\n" + trust("B", "m") + "compact\ncompact\nlist\ncheck\n",
        "ok\n" + TWO_TOLD + "ok\n" + TWO_LISTED + "ok\nok\nok\nok\n" + listed(("A", "u", "u"), ("B", "f", "m")) + "tally:2:1:1:0:0:0:0:0:\nok\n",
        0,
    ),
    "what another ownertrust would change": (
        MARGINAL + f"export\nsuppose trust {B} f\nexport\nlist {C}\nsuppose trust {B} m\nsuppose trust {D} f\nsuppose trust {A} o\nsuppose trust {B} u\n",
        MARGINAL_TOLD + f"{A}:6:\n{B}:4:\nok\n" + "change:00000000000000CC:1:m:f:\nok changes 1\n" + f"{A}:6:\n{B}:4:\nok\n" + listed(("C", "m", "-"))
        + "ok changes 0\nok changes 0\n" + change("A", "u", "-") + change("B", "f", "-") + change("C", "m", "-") + "ok changes 3\n"
        + change("B", "f", "u") + change("C", "m", "f") + "ok changes 2\n",
        0,
    ),
    "what other options would change": (
        MARGINAL + "suppose options classic 1 3 1 2\nsuppose options pgp 1 3 5 2\nlist\n",
        MARGINAL_TOLD + change("C", "m", "-") + "ok changes 1\nok changes 0\n" + listed(("A", "u", "u"), ("B", "f", "m"), ("C", "m", "-")),
        0,
    ),
    "what a date would change": (
        trust("A", "u") + imported(key("A"), key("B", "A", expires=5000)) + "date 4999\nsuppose date 5000\nsuppose date 19700101T012319\nlist\n",
        TWO_TOLD + "ok\n" + change("B", "f", "e") + "ok changes 1\nok changes 0\n"
        + listed(("A", "u", "u"), ("B", "f", "-"), tru="tru::1:4999:5000:3:1:5\n").replace(":22:00000000000000BB:1000::", ":22:00000000000000BB:1000:5000:"),
        0,
    ),
    "what would change on a second user ID, and of a disabled key": (
        TWO_KEYS + imported(key("C", text="C <c@example.org>") + "uid:-::::1000::::C <c@example.net>:\n" + by("B")) + trust("B", "f") + f"disable {B}\nsuppose trust {B} n\nexport\n",
        TWO_TOLD + "ok keys 1 kept 1 passed 0\nok\nok\n" + "change:00000000000000CC:2:f:q:\nok changes 1\n" + f"{A}:6:\n{B}:133:\nok\n",
        0,
    ),
    "on whose ownertrust a letter hangs": (
        MARGINAL + f"disable {B}\ndisable {D}\ncritical {C} 1\ncritical {B} 1\ncritical {A} 1\nexport\n",
        MARGINAL_TOLD + "ok\nok\n" + f"critical:{A}:-:\ncritical:{B}:q:\nok critical 2\n" + f"critical:{A}:-:\nok critical 1\n" * 2 + f"{A}:6:\n{B}:132:\n{D}:128:\nok\n",
        0,
    ),
    "one more than are needed": (
        FOUR + imported(key("F", *"BCD")) + f"critical {F} 1\n" + imported(key("F", *"BCDE")) + f"critical {F} 1\n",
        FOUR_TOLD + "ok keys 1 kept 3 passed 0\n" + f"critical:{A}:-:\n" + "".join(f"critical:{one}:m:\n" for one in (B, C, D)) + "ok critical 4\n"
        + "ok keys 1 kept 4 passed 0\n" + f"critical:{A}:-:\nok critical 1\n",
        0,
    ),
    "letters that hang on nobody": (
        trust("A", "u") + trust("D", "f") + imported(key("A"), key("B", "A", expires=1500), key("C").replace("pub:-", "pub:r"), key("D")) + "date 1500\n"
        + "".join(f"critical {one} 1\n" for one in (B, C, D)),
        "ok\nok\nok keys 4 kept 1 passed 0\nok\n" + "ok critical 0\n" * 3,
        0,
    ),
    # without E the scope of F is wide, so that F makes D an introducer a level earlier, whom F trusts for nothing
    "a letter that hangs on somebody who is not in its explanation": (
        trust("A", "u") + trust("E", "u") + imported(
            key("A"), key("E"), key("F", by("A", trusts="3 120"), by("E", 3000, trusts="3 120", scope=NET)), key("B", by("A", trusts="4 120")), key("C", by("B", trusts="3 120")),
            key("D", by("F", 3500, trusts="1 30"), by("C", 4000, trusts="1 120")), key("11", "D"))
        + f"why {fingerprint('11')} 1\ncritical {fingerprint('11')} 1\n",
        "ok\nok\nok keys 7 kept 7 passed 0\nwhy:f:0000000000000011:1:0:1:0:0:\nrow:00000000000000AA:0:u:0:::\nrow:00000000000000BB:1:f:3::00000000000000AA:\n"
        "row:00000000000000CC:2:f:2::00000000000000BB:\nrow:00000000000000DD:3:f:0::00000000000000CC:\nby:00000000000000DD:f:\ncut:f:\nok\n"
        f"critical:{A}:-:\ncritical:{E}:q:\nok critical 2\n",
        0,
    ),
    # without E the scope of B is wide, and the letter a better one
    "an entry without which a letter is better": (
        trust("A", "u") + trust("E", "u") + trust("11", "m") + imported(
            key("A"), key("E"), key("B", by("A", trusts="1 120"), by("E", 3000, trusts="1 120", scope=NET)), key("11", "A", "E"), key("C", "B", "11"))
        + f"list {C}\ncritical {C} 1\nsuppose trust {E} o\n",
        "ok\nok\nok\nok keys 5 kept 6 passed 0\n" + listed(("C", "m", "-")) + f"critical:{fingerprint('11')}:q:\nok critical 1\n"
        + change("C", "m", "f") + change("E", "u", "-") + "ok changes 2\n",
        0,
    ),
    "fingerprints of 64 digits come last": (
        f"trust {LONG_FPR} u\ntrust {ANOTHER} f\n" + imported(LONG_KEY, OTHER_A + "uid:-::::1000::::A <a@example.org>:\n" + by("AB"), key("B", "A")) + f"critical {B} 1\n",
        f"ok\nok\nok keys 3 kept 2 passed 0\ncritical:{ANOTHER}:q:\ncritical:{LONG_FPR}:-:\nok critical 2\n",
        0,
    ),
    "what can't be supposed": (
        "".join(f"suppose{edit}\n" for edit in ("", f" delete {A}", f" disable {A}", " import", " ownertrust", " sample 1 1", " compact", " list", " suppose date 5", " Date 5")) + "list\n",
        "err bad-argument 1\n" * 10 + listed(),
        1,
    ),
    "bad words of what is supposed": (
        "".join(f"suppose {edit}\n" for edit, _ in WRONGLY_SUPPOSED) + "list\n",
        "".join(f"err bad-argument {place}\n" for _, place in WRONGLY_SUPPOSED) + listed(),
        1,
    ),
    "bad words of critical": (
        TWO_KEYS + "".join(f"critical {words}\n" for words in ("", "AA", f"{A}", f"{A} 0", f"{A} x", f"{A} 4294967296", f"{A} 1 1", f"{C} 1", f"{ANOTHER} 1", f"{A} 2", f"{A} 4294967295")),
        TWO_TOLD + "".join(f"err {reason}\n" for reason in ("bad-argument 1",) * 2 + ("bad-argument 2",) * 4 + ("bad-argument 3",) + ("no-such-key",) * 2 + ("no-such-user",) * 2),
        1,
    ),
    "earlier states": (
        MARGINAL + f"list\nat 2 list\nat 5 list\nat 1 why {B} 1\nat 0 list\nat 3 list {C}\nat 4 list {C.lower()}\nat 2 why {B} 1\nat 2 why {B} 2\nat 4 list\n"
        f"compact\nat 0 list\nat 1 list\nat 0 why {B} 1\nat 2 sigs\ndelete {C}\nat 1 list\nat 0 list {C}\nat 1 list {C}\n",
        MARGINAL_TOLD + MARGINAL_LISTED + TWO_LISTED + "err no-such-time 4\nerr no-such-key\n" + listed() + "err no-such-key\n" + listed(("C", "m", "-")) + WHY_B + "err no-such-user\n"
        + MARGINAL_LISTED + "ok\n" + MARGINAL_LISTED + "err no-such-time 0\n" + WHY_B + "err bad-argument 2\nok\n" + listed(("A", "u", "u"), ("B", "f", "m")) + listed(("C", "m", "-"))
        + "err no-such-key\n",
        1,
    ),
    "what is refused is no edit": (
        TWO_KEYS + trust("A", "x") + f"delete {C}\n" + imported(OTHER_A) + f"suppose trust {B} m\nlist\ncompact now\nat 3 list\nat 18446744073709551615 list\nat 0000000000000000000000002 list\n",
        TWO_TOLD + "err bad-argument 2\nerr no-such-key\nerr key-id-taken 00000000000000AA\nok changes 0\n" + TWO_LISTED + "err bad-argument 1\nerr no-such-time 2\nerr no-such-time 2\n" + TWO_LISTED,
        1,
    ),
    "an edit that changes nothing is an edit": (
        trust("A", "-") + "date 0\nimport\n.\nownertrust\n.\noptions pgp 1 3 5 2\nat 5 list\nat 6 list\n",
        "ok\nok\nok keys 0 kept 0 passed 0\nok entries 0\nok\n" + listed() + "err no-such-time 5\n",
        1,
    ),
    "bad words of at": (
        TWO_KEYS + "".join(f"at {words}\n" for words, _ in WRONGLY_ASKED),
        TWO_TOLD + "".join(f"err bad-argument {place}\n" for _, place in WRONGLY_ASKED),
        1,
    ),
    "of at a bad word comes before a number too great, and this before a key": (
        f"at 1 why {A} 0\nat 1 why {A} 1\nat 0 why {A} 1\nat 0 list {A}\n", "err bad-argument 4\nerr no-such-time 0\nerr no-such-key\nerr no-such-key\n", 1),
    "compact and check take no word": ("compact now\ncheck 1\nlist\n", "err bad-argument 1\nerr bad-argument 1\n" + listed(), 1),
    "nothing after quit": ("list\nquit\nlist\nfrob\n", listed() + "ok\n", 0),
    "quit with an argument ends nothing": ("quit now\nlist\n", "err bad-argument 1\n" + listed(), 1),
    "options out of their ranges": (
        "options tofu 1 3 5 2\noptions pgp 0 3 5 2\noptions pgp 1 1 5 2\noptions pgp 1 3 0 2\noptions pgp 1 3 256 2\noptions pgp 1 3 5 4\noptions pgp 1 3 5\noptions pgp 1 3 5 2 1\n",
        "".join(f"err bad-argument {n}\n" for n in (1, 2, 3, 4, 4, 5, 5, 6)),
        1,
    ),
    "fingerprints as people have them": (
        "".join(f"list {word}\ntrust {word} u\n" for word in (f"0x{A}", f"{A[:20]}  {A[20:]}", " ".join(A[n:n + 4] for n in range(0, 40, 4)), A[-16:], "a@example.org", "A"))
        + f"trust {A.lower()} u\nexport\n",
        "err bad-argument 1\n" * 12 + f"ok\n{A}:6:\nok\n",
        1,
    ),
    "trust as people have it": ("".join(f"trust {A} {word}\n" for word in ("U", "6", "full", "")) + "export\n", "err bad-argument 2\n" * 4 + "ok\n", 1),
    "dates as people have them": (
        "".join(f"date {word}\n" for word in ("2026-11-28", "20261128T101112Z", "@1700000000", "now", "2026-11-28T10:11:12")) + "date 20261128T101112\nlist\n",
        "err bad-argument 1\n" * 5 + "ok\n" + listed(tru="tru::1:1795860672:0:3:1:5\n"),
        1,
    ),
    "the greatest numbers": (
        f"options pgp 4294967296 3 5 2\noptions pgp 1 4294967296 5 2\nwhy {A} 4294967296\nwhy {A} 4294967295\n"
        "options pgp 4294967295 4294967295 255 3\ndate 4294967295\nlist\n",
        "err bad-argument 2\nerr bad-argument 3\nerr bad-argument 2\nerr no-such-key\nok\nok\n" + listed(tru="tru::1:4294967295:0:4294967295:4294967295:255\n"),
        1,
    ),
    "bad dates": ("date x\ndate 19700230T000000\ndate 19691231T235959\ndate 4294967296\ndate\n", "err bad-argument 1\n" * 5, 1),
}
SESSIONS["quoted bytes"] = (
    SESSIONS["quoted bytes"][0],
    b"ok keys 1 kept 0 passed 0\n" + TRU.encode() + lines("A", "-", "-").encode().replace(b"A <a@example.org>", b"a\\x3ab\\x5cc\\x0a\xc3\xa9") + b"ok\n",
    0,
)


def example(name):
    """A worked session: its input, what is told, and the status, which is 1 where a reply is a refusal."""
    given, told = ((EXAMPLES / name / part).read_bytes() for part in ("input", "output"))
    return given, told, int(any(line.startswith(b"err ") for line in told.splitlines()))


SESSIONS.update((given.parent.name, example(given.parent.name)) for given in sorted(EXAMPLES.glob("*/input")))


def trusted(*certs, text="C <c@example.org>", also="", options=""):
    """The letter of C's user ID, where A is ultimately trusted and these are the certifications on B, and B certifies C."""
    given = trust("A", "u") + also + options + imported(key("A"), key("B", *certs), key("C", "B", text=text)) + f"list {C}\n"
    return letters(run(given).stdout.decode("latin-1")).popitem()[1]


def chained(scope, text, first=by("A", trusts="2 120", scope=ORG), second="", options=""):
    """The letter of a user ID that C certifies, whom B trusts within a scope, who is trusted by A."""
    second = second or by("B", 3000, trusts="1 120", scope=scope)
    given = trust("A", "u") + options + imported(key("A"), key("B", first), key("C", second), key("D", by("C", 4000), text=text)) + f"list {D}\n"
    return letters(run(given).stdout.decode())[text]


LONG = "<[^>]+[@.]" + "a" * 243 + ">$"
# a question about trust signatures, and its answer
LETTERS = {
    "amount 60 is marginal": (lambda: trusted(by("A", trusts="1 60")), "m"),
    "amount 59 is nothing": (lambda: trusted(by("A", trusts="1 59")), "q"),
    "amount 119 is marginal": (lambda: trusted(by("A", trusts="1 119")), "m"),
    "amount 120 is full": (lambda: trusted(by("A", trusts="1 120")), "f"),
    "the classic model has no delegations": (lambda: trusted(by("A", trusts="1 120"), options="options classic 1 3 5 2\n"), "q"),
    "a domain admits its address": (lambda: trusted(by("A", trusts="1 120", scope=ORG), text="N <a@example.org>"), "f"),
    "and those below it, in either case": (lambda: trusted(by("A", trusts="1 120", scope=ORG), text="N <a@x.EXAMPLE.org>"), "f"),
    "and no longer name": (lambda: trusted(by("A", trusts="1 120", scope=ORG), text="N <a@evilexample.org>"), "-"),
    "and no address without brackets": (lambda: trusted(by("A", trusts="1 120", scope=ORG), text="a@example.org"), "-"),
    "an escaped hyphen": (lambda: trusted(by("A", trusts="1 120", scope="<[^>]+[@.]my\\x5c-site\\x5c.org>$"), text="N <a@my-site.org>"), "f"),
    "an unescaped dot takes any byte": (lambda: trusted(by("A", trusts="1 120", scope="<[^>]+[@.]example.org>$"), text="N <a@exampleXorg>"), "f"),
    "an escaped letter stands for itself": (lambda: trusted(by("A", trusts="1 120", scope="<[^>]+[@.]\\x5cexample\\x5c.org>$"), text="N <a@example.org>"), "f"),
    "an empty domain takes an address without one": (lambda: trusted(by("A", trusts="1 120", scope="<[^>]+[@.]>$"), text="N <a@>"), "f"),
    "and none with one": (lambda: trusted(by("A", trusts="1 120", scope="<[^>]+[@.]>$"), text="N <a@example.org>"), "-"),
    "an end without a bracket": (lambda: trusted(by("A", trusts="1 120", scope="\\x5c.example\\x5c.org$"), text="a@lists.example.org"), "f"),
    "and a text with one": (lambda: trusted(by("A", trusts="1 120", scope="\\x5c.example\\x5c.org$"), text="N <a@lists.example.org>"), "-"),
    "one of two, somewhere in the text": (lambda: trusted(by("A", trusts="1 120", scope="(lists|dev)\\x5c.example"), text="C <c@dev.Example.org>"), "f"),
    "and neither": (lambda: trusted(by("A", trusts="1 120", scope="(lists|dev)\\x5c.example"), text="C <c@devXexample.org>"), "-"),
    "any text at all": (lambda: trusted(by("A", trusts="1 120", scope=".*")), "f"),
    "a sign twice is no expression": (lambda: trusted(by("A", trusts="1 120", scope="C.**")), "-"),
    "an open group is no expression": (lambda: trusted(by("A", trusts="1 120", scope="(C")), "-"),
    "an empty branch takes an empty user ID": (lambda: trusted(by("A", trusts="1 120", scope="|"), text=""), "f"),
    "and one or more of a byte none": (lambda: trusted(by("A", trusts="1 120", scope="^A+$"), text=""), "-"),
    "two brackets": (lambda: trusted(by("A", trusts="1 120", scope=ORG), text="N <b <a@example.org>"), "f"),
    "a bracket within": (lambda: trusted(by("A", trusts="1 120", scope=ORG), text="N <a>@example.org>"), "-"),
    "nothing before the separator": (lambda: trusted(by("A", trusts="1 120", scope=ORG), text="N <@example.org>"), "-"),
    "a domain longer than the text": (lambda: trusted(by("A", trusts="1 120", scope=ORG), text="<@>"), "-"),
    "upper case in the domain": (lambda: trusted(by("A", trusts="1 120", scope="<[^>]+[@.]EXAMPLE\\x5c.org>$"), text="N <a@example.org>"), "f"),
    "escaped bytes above 127": (lambda: trusted(by("A", trusts="1 120", scope="<[^>]+[@.]z\\x5c\\xc3\\x5c\\xb6>$"), text="N <a@zö>"), "f"),
    "a scope of 255 bytes": (lambda: trusted(by("A", trusts="1 120", scope=LONG), text="N <a@" + "a" * 243 + ">"), "f"),
    "a chain narrows": (lambda: chained(NET, "D <d@other.net>"), "-"),
    "a user ID within both scopes of a chain": (lambda: chained(LISTS, "E <e@lists.example.org>"), "f"),
    "within the first alone": (lambda: chained(LISTS, "F <f@example.org>"), "-"),
    "a chain whose first link has no scope": (lambda: chained(NET, "D <d@other.net>", by("A", 2500, trusts="2 120")), "f"),
    "a chain whose last link has none": (lambda: chained("", "D <d@example.org>"), "f"),
    "and what is beyond it": (lambda: chained("", "D <d@other.net>"), "-"),
    "a scope within a chain that is no expression": (lambda: chained("", "D <d@example.org>", by("A", trusts="2 120", scope="a**"), second="A"), "q"),
    "the classic model knows no chains": (lambda: chained(NET, "D <d@other.net>", options="options classic 1 3 5 2\n" + trust("B", "f") + trust("C", "f")), "f"),
    "a trust signature that names another fingerprint": (lambda: trusted(by("A"), by("A", 3000, trusts="1 120", named=ANOTHER)), "q"),
    "and one that names its issuer's": (lambda: trusted(by("A", 3000, trusts="1 120", named=A)), "f"),
    "a full introducer passes no depth on": (
        lambda: letters(
            run(
                trust("A", "u") + trust("B", "f")
                + imported(key("A"), key("B", "A"), key("C", by("B", trusts="1 120")), key("D", "C")) + "list\n"
            ).stdout.decode()
        )["D <d@example.org>"],
        "q",
    ),
}

# words of the command line, the input, what is told, what standard error gets and the status
WORDS = {
    "list": (["list"], "", listed(), "", 0),
    "one ownertrust": (["trust", A, "o"], "frob\n", "ok\n", "", 0),
    "a block is the whole input": (["import"], key("A") + ".\n" + key("B"), "ok keys 2 kept 0 passed 0\n", "", 0),
    "workers": (["--workers", "3", "list"], "", listed(), "", 0),
    "workers between words": (["list", "--workers=64"], "", listed(), "", 0),
    "compact": (["compact"], "frob\n", "ok\n", "", 0),
    "check": (["--workers", "4", "check"], "frob\n", "tally:0:0:0:0:0:0:0:0:\nok\n", "", 0),
    "what an edit would change": (["suppose", "trust", A, "o"], "frob\n", "ok changes 0\n", "", 0),
    "on whom a letter hangs": (["--workers", "2", "critical", A, "1"], "", "err no-such-key\n", "", 1),
    "an earlier state": (["at", "0", "list"], "frob\n", listed(), "", 0),
    "one that isn't there": (["--workers", "64", "at", "1", "why", A, "1"], "", "err no-such-time 0\n", "", 1),
    "a number of edits with a dash": (["at", "-1", "list"], "", "", USAGE, 2),
    "a dash as a letter": (["suppose", "trust", A, "-"], "", "", USAGE, 2),
    "check with a word": (["check", A], "", "err bad-argument 1\n", "", 1),
    "a dash word after --": (["--", "-x"], "", "err unknown-command\n", "", 1),
    "no workers": (["--workers", "0"], "", "", USAGE, 2),
    "65 workers": (["--workers=65"], "", "", USAGE, 2),
    "workers twice": (["--workers", "2", "--workers", "2"], "", "", USAGE, 2),
    "an unknown option": (["-x"], "", "", USAGE, 2),
    "a dash": (["-"], "", "", USAGE, 2),
    "a dash after --": (["--", "-"], "", "", USAGE, 2),
    "help": (["--help"], "", "", USAGE, 2),
    "an empty word": ([""], "", "err unknown-command\n", "", 1),
    "a word that is not UTF-8": ([b"\xff"], "", "", "wot: no words\n", 9),
}


def commands(given):
    """The commands of a session with their blocks."""
    found, block = [], None
    for line in given.splitlines(keepends=True):
        if block is None:
            found.append(line)
            if line.split(b" ")[0].strip() in (b"import", b"ownertrust"):
                block = True
        else:
            found[-1] += line
            block = None if line.strip() == b"." else True
    return found


def records(listing):
    """The records of a printed listing without what the state gives: validity, ownertrust and whether the key is disabled."""
    found = [line.split(b":") for line in listing.splitlines() if line[:3] in (b"pub", b"fpr", b"uid", b"uat", b"sig", b"rev")]
    return [f if f[0] in (b"sig", b"rev") else [f[0], *f[2:8], *f[9:11], f[11].rstrip(b"D") if f[0] == b"pub" else b""] for f in found]


faults, tried = [], 0


def differ(name, wanted, told):
    if wanted != told:
        faults.append(f"{name}: {told} in place of {wanted}")


for name, (given, wanted, status) in SESSIONS.items():
    given, wanted = (x.encode() if isinstance(x, str) else x for x in (given, wanted))
    done, tried = run(given), tried + 1
    if (done.stdout, done.returncode, done.stderr) != (wanted, status, b""):
        faults.append(f"{name}: told {short(done.stdout)}, status {done.returncode}, {short(done.stderr)} in place of {short(wanted)}, {status}")
    if "quit" in name:
        continue
    with folder() as store:
        again = b"".join(run(command, where=store).stdout for command in commands(given))
        printed = run(b"sigs\n", where=store).stdout
    if again != wanted:
        faults.append(f"{name}, reopened after each command: told {short(again)} in place of {short(wanted)}")
    tried += 2
    read = run(b"import\n" + printed[: -len(b"ok\n")] + b".\nsigs\n").stdout
    if records(read) != records(printed):
        faults.append(f"{name}: {short(printed)} reads back as {short(read)}")
for name, (ask, wanted) in LETTERS.items():
    differ(name, wanted, ask())
for name, (words, given, *wanted) in WORDS.items():
    done = run(given, words)
    differ(name, wanted, [done.stdout.decode(), done.stderr.decode(), done.returncode])
if faults:
    sys.exit("\n".join(faults))
print(f"sessions: {tried + len(LETTERS) + len(WORDS)} ok")
