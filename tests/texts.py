#!/usr/bin/env python3
"""Tries worked rows of texts on the built program: words, numbers, dates, quoted texts and ownertrust lines.

texts.py PROGRAM: each row was worked out by hand from the formats, and says what is read of a text, or how it is refused.
"""
from reference.program import USAGE, fingerprint, key_id, run, short, trust

# words that ask for nothing, each cut at its spaces
WRONG_WORDS = """--workers 0|--workers=65|--workers 2 --workers=2|--workers|--workers=|--workers --|--workers -- 2|--workers -|--workers -5|--workers --workers
--workers x -- --workers 2|--workers= 2|--workers=+2|--workers==2|--work 2|--worker 2|--workers2|export --workers|-x|export -x|-5|-é|--é|--=2|---|-|export -|-- -
export -- export -|--help|-h|--version""".replace("\n", "|").split("|")

# words of the command `export`, which an empty store answers with nothing but `ok`
RIGHT_WORDS = ("export", "--workers 64 export", "export --workers=007", "export --workers 2", "-- export", "--workers 3 -- export")

# what a field spells, and the number that it is printed as; None where it is refused
NUMBERS = {"0": 0, "007": 7, "4294967295": 2**32 - 1, "0" * 1000: 0, "4294967296": None, "9" * 1000: None, "": 0, "+1": None, "1 ": None}

DATES = {
    "0": 0, "4294967295": 2**32 - 1, "19700101T000000": 0, "20000229T235959": 951_868_799, "20260101T000000": 1_767_225_600,
    "21060207T062815": 2**32 - 1, "4294967296": None, "21060207T062816": None, "99991231T235959": None, "19691231T235959": None,
    "00000101T000000": None, "20010229T000000": None, "20240230T000000": None, "20240001T000000": None, "20241301T000000": None,
    "20240100T000000": None, "20240101T240000": None, "20240101T236000": None, "20161231T235960": None, "20240101t000000": None,
    "20240101T00000": None, "20240101T000000Z": None, "2024+101T000000": None,
}

# a quoted field, and how its text is printed; None where it is refused
QUOTED = {
    b"Alice <a@x.org>": b"Alice <a@x.org>", b"a\\x3ab\\\\c\\n\xc3\xa9": b"a\\x3ab\\x5cc\\x0a\xc3\xa9", b"\\r\\t\\f\\v\\b\\0": b"\\x0d\\x09\\x0c\\x0b\\x08\\x00",
    b"\\xfF\\x00\\x7f": b"\xff\\x00\\x7f", b"\\xg1": None, b"\\x1": None, b"\\x": None, b"a\\": None, b"\\a": None, b"\\X41": None,
}

A, B = "0" * 37 + "AAA", "0" * 62 + "BB"
# lines of an ownertrust text, and what is exported then; a fault where they are refused
OWNERTRUST = {
    f"{A}:2:": f"{A}:2:\n", f"{B}:06:": f"{B}:6:\n", f"{A}:128:": f"{A}:128:\n", f"{B}:134:": f"{B}:134:\n", "": "", "   ": "", "# a comment": "", "#:::": "",
    f"{A.lower()}:0:": "", f"{A}:6": "BadShape", f"{A}:6:7": "BadShape", f"{A}:6::": "BadShape", f"{A}:6: ": "BadShape", " # a comment": "BadShape",
    f"{A}0:6:": "BadFingerprint", f"{A}0::": "BadFingerprint", f"{A}::": "BadValue", f"{A}:1:": "BadValue", f"{A}:7:": "BadValue", f"{A}:08:": "BadValue",
    f"{A}:129:": "BadValue", f"{A}:135:": "BadValue", f"{A}:256:": "BadValue", f"{A}:-2:": "BadValue", f"{A}: 6:": "BadValue", f"{A}:4294967296:": "BadValue",
}



def words():
    for line in WRONG_WORDS:
        done = run(words=line.split(" "))
        yield f"the words {line!r}", (done.returncode, done.stdout, done.stderr), (2, b"", USAGE.encode())
    for line in RIGHT_WORDS:
        done = run(words=line.split(" "))
        yield f"the words {line!r}", (done.returncode, done.stdout, done.stderr), (0, b"ok\n", b"")


def one_key(bits="255", made="1000", text=b"A"):
    """The import of a key with these fields."""
    head = f"import\npub:-:{bits}:22:{key_id('A')}:{made}:::-:::scSC:\nfpr:::::::::{fingerprint('A')}:\nuid:-::::1000::::"
    return head.encode() + text + b":\n.\n"


def printed(given):
    """The fields of the key and of its user ID as they are printed, or the reply that refuses them."""
    lines = run(given + b"list\n").stdout.split(b"\n")
    if lines[0].startswith(b"err"):
        return lines[0]
    return {fields[0]: fields for fields in (line.split(b":") for line in lines)}


def fields():
    for text, value in NUMBERS.items():
        told = printed(one_key(bits=text))
        yield f"the number {text[:30]!r}", told if value is None else told[b"pub"][2], b"err listing 1 BadNumber" if value is None else str(value).encode()
    for text, value in DATES.items():
        told = printed(one_key(made=text))
        yield f"the date {text!r}", told if value is None else told[b"pub"][5], b"err listing 1 BadDate" if value is None else str(value).encode()
    for text, value in QUOTED.items():
        told = printed(one_key(text=text))
        yield f"the quoted text {text!r}", told if value is None else told[b"uid"][9], b"err listing 3 BadQuote" if value is None else value


def ownertrust():
    for line, wanted in OWNERTRUST.items():
        told = run(f"ownertrust\n{line}\n.\nexport\n").stdout.decode()
        refused = wanted.startswith("Bad")
        yield f"the line {line!r}", told, f"err ownertrust 1 {wanted}\nok\n" if refused else f"ok entries {wanted.count(chr(10))}\n{wanted}ok\n"


def main():
    failed = tried = 0
    for what, told, wanted in (row for rows in (words, fields, ownertrust) for row in rows()):
        tried += 1
        if told != wanted:
            failed += 1
            print(f"texts: {what}: {short(str(told))}, and not {wanted}")
    print(f"texts: {tried} rows of words, fields and ownertrust lines, {failed} told otherwise")
    return 1 if failed else 0


if __name__ == "__main__":
    raise SystemExit(main())
