"""The listings that the bench gives to the program, written to files: keys with one user ID, and on it certifications by earlier keys."""
import hashlib


def fingerprint(number):
    """As hashes are: two of them differ from the first bytes on."""
    return f"{hashlib.sha1(b'%d' % number).hexdigest()[:24].upper()}{key_id(number)}"


def key_id(number):
    return f"{number + 1:016X}"


def user(number):
    return f"Key {number} <k{number}@d{number % 7}.example>"


def certifications(number, count):
    """The issuers, the first keys more often, and the dates of the certifications on a key."""
    for place in range(count if number else 0):
        yield (number * 7919 + place * 104729) % (number // 3 + 1), 1600000000 + (number * 31 + place * 17) % 100000000


def plain_key(number, certs=4):
    """The records of a key that are kept, and no more."""
    lines = [
        f"pub:-:255:22:{key_id(number)}:1600000000:::-:::scSC:\nfpr:::::::::{fingerprint(number)}:\n",
        f"uid:-::::1600000000::::{user(number)}:\n",
    ]
    lines += [f"sig:!:::{key_id(issuer)}:{date}:::::10x:\n" for issuer, date in certifications(number, certs)]
    return "".join(lines)


def gpg_key(number, certs=4):
    """A key as gpg prints it: all fields, self-signatures, the issuers' user IDs and fingerprints, and a subkey."""
    lines = [
        f"pub:-:255:22:{key_id(number)}:1600000000:::-:::scESC:::::ed25519:::0:\nfpr:::::::::{fingerprint(number)}:\n",
        f"uid:-::::1600000000::{number:040X}::{user(number)}::::::::::0:\n",
        gpg_signature(number, 1600000000, "13x"),
    ]
    lines += [gpg_signature(issuer, date, "10x") for issuer, date in certifications(number, certs)]
    lines += [
        f"sub:-:255:18:{number + 1:015X}F:1600000000::::::e:::::cv25519::\nfpr:::::::::{number:024X}{number + 1:015X}F:\n",
        gpg_signature(number, 1600000000, "18x"),
    ]
    return "".join(lines)


def gpg_signature(issuer, date, kind):
    return f"sig:!::22:{key_id(issuer)}:{date}::::{user(issuer)}:{kind}::{fingerprint(issuer)}:::8:\n"


def written(path, key, count):
    """A listing of so many keys in a file."""
    with open(path, "w", encoding="utf-8") as file:
        file.write("tru::1:1700000000:0:3:1:5\n")
        for number in range(count):
            file.write(key(number))
    return path


def written_ownertrust(path, count):
    """Ownertrust of one key in a hundred in a file, as gpg exports it: the first is ultimate, the others full or marginal."""
    with open(path, "w", encoding="utf-8") as file:
        for number in range(0, count, 100):
            file.write(f"{fingerprint(number)}:{4 + number // 100 % 2 if number else 6}:\n")
    return path
