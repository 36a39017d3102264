"""The keys and entries that `sample SEED COUNT` makes, by another program than the one that is tested."""
MASK = 2**64 - 1


def mix(x):
    z = (x + 0x9E3779B97F4A7C15) & MASK
    z = ((z ^ (z >> 30)) * 0xBF58476D1CE4E5B9) & MASK
    z = ((z ^ (z >> 27)) * 0x94D049BB133111EB) & MASK
    return z ^ (z >> 31)


def draw(seed, number, place):
    return mix((seed + mix(16 * number + place)) & MASK)


def key_id(seed, number):
    return f"{((seed << 32) & MASK) + number:016X}"


def fingerprint(seed, number):
    return f"{seed:016X}00000000{key_id(seed, number)}"


def entry(seed, number):
    """The ownertrust number of a key, 0 where it has no entry."""
    return (5, 4, 4, 0)[draw(seed, number, 12) % 4] if number else 6


def certifications(seed, number):
    """The lines of the certifications on a key, as they are printed."""
    for place in range(4 if number else 0):
        issuer = key_id(seed, draw(seed, number, place) % (number // 3 + 1))
        made = 1600000000 + draw(seed, number, 4 + place) % 100000000
        trusts = "2 60" if draw(seed, number, 8 + place) % 8 == 0 else ""
        yield f"sig:!:::{issuer}:{made}::{trusts}:::10x:\n"


def is_revoked(number):
    return number % 97 == 96


def lines(seed, number, owner):
    """The lines of a key as `sigs` prints them, with nothing in place of the letters of validity."""
    expires = "1700000000" if number % 50 == 49 else ""
    return [
        f"pub::255:22:{key_id(seed, number)}:1600000000:{expires}::{owner}:::scSC:\n",
        f"fpr:::::::::{fingerprint(seed, number)}:\n",
        f"uid:::::1600000000::::Key {number} <k{number}@d{number % 7}.example>:\n",
        *certifications(seed, number),
    ]


def without_letters(listing):
    """A printed listing with nothing in place of the letters of validity."""
    found = []
    for line in listing.splitlines(keepends=True):
        fields = line.split(":")
        found.append(":".join([fields[0], "", *fields[2:]]) if fields[0] in ("pub", "uid") else line)
    return found
